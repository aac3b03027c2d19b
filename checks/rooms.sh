#!/usr/bin/env bash
# docs/CHANGING.md and docs/WORDS.md name crates that there are, and in braces files that they have; and what CHANGING says
# to search for is found in the crates.
set -u
cd "$(dirname "$0")/.." || exit 1
has() {
  local place
  for place in "src/$2.rt" "specs/$2.antt" "proofs/$2.antt" "src/$2" "proofs/$2" "$2"; do
    [ -e "crates/$1/$place" ] && return 0
  done
  return 1
}
fail=0
seen=0
crate=
# A name in backquotes and the braces behind it, or braces that go on from the crate before them.
while IFS= read -r word; do
  if [[ $word == \`* ]]; then
    crate=${word#\`}
    crate=${crate%%\`*}
    if [ ! -d "crates/$crate" ]; then
      echo "rooms: there is no crate $crate" >&2
      fail=1
      continue
    fi
  fi
  [[ $word == *\{* ]] || continue
  files=${word#*\{}
  for file in ${files//[\},;]/ }; do
    seen=$((seen + 1))
    if ! has "$crate" "$file"; then
      echo "rooms: $crate has no $file" >&2
      fail=1
    fi
  done
done < <(cat docs/CHANGING.md docs/WORDS.md | tr '\n' ' ' | grep -oE '`crsm(_[a-z_]+)?`( *\{[^}]*\})?|\{[^}]*\}')
for word in $(tr '\n' ' ' < docs/CHANGING.md | grep -oE '[Ss]earch +`[^`]+`' | sed 's/[^`]*`//; s/`//'); do
  if ! git grep -qwF -e "$word" -- crates; then
    echo "rooms: $word is nowhere in crates" >&2
    fail=1
  fi
done
if [ "$seen" = 0 ]; then
  echo "rooms: no file is named" >&2
  fail=1
fi
[ "$fail" = 0 ] && echo "rooms: ok"
exit "$fail"
