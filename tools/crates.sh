#!/usr/bin/env bash
# Prints crates/README.md: the rooms of crates.txt, and for each crate the first sentence of the head of its root file.
# With --write the file is written.
set -u
cd "$(dirname "$0")/.." || exit 1

first_sentence() {
  local root=crates/$1/src/lib.rt
  [ -e "$root" ] || root=crates/$1/src/main.rt
  awk '
    !/^\/\/!/ || /^\/\/! *$/ { if (text != "") exit; next }
    { sub(/^\/\/! */, ""); text = text (text == "" ? "" : " ") $0 }
    END {
      if (match(text, /\.( |$)/)) text = substr(text, 1, RSTART)
      gsub(/\|/, "\\|", text)
      print text
    }' "$root"
}

page() {
  local lower='' line room name
  cat <<'END'
# Crates

`bash tools/crates.sh --write` makes this page from `crates.txt` and from the heads of the crates' root files. A crate
uses crates of its own room and of the rooms that its heading names, and libraries of the kit. Law crates are used by
law crates, by test programs and by the few crates that `checks/layers.sh` names; it checks all this.
[ARCHITECTURE](../docs/ARCHITECTURE.md) says what the rooms are for.
END
  while IFS= read -r line; do
    if [[ $line =~ ^'## '([a-z]+)': '(.*)$ ]]; then
      room=${BASH_REMATCH[1]}
      printf '\n## %s\n\n%s ' "$room" "${BASH_REMATCH[2]}"
      case $room in
        law) echo "May use: spec, fact, \`crsm_mpspec\`, and the few crates that \`checks/layers.sh\` names." ;;
        test) echo 'May use: every other room.' ;;
        *) echo "May use: ${lower:-no other room}." ;;
      esac
      [ "$room" = law ] || lower+=${lower:+, }$room
      printf '\n| crate | what it is |\n|---|---|\n'
    elif [[ $line =~ ^(crsm[a-z_]*)' '?[a-z_=]*: ]]; then
      name=${BASH_REMATCH[1]}
      printf '| [`%s`](%s) | %s |\n' "$name" "$name" "$(first_sentence "$name")"
    fi
  done < crates.txt
}

if [ "${1:-}" = --write ]; then
  page > crates/README.md
else
  page
fi
