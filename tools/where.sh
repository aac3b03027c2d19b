#!/usr/bin/env bash
# Lists the places that name one of some words, such as the variant of an enum: bash tools/where.sh WORD..
# Crates come room by room, the lowest first, each with its files and how many of their lines have a word; then the rest
# of the repository. Words are matched whole and as they are written: `Suspend` is neither `suspend` nor `Suspended`.
set -u
if [ $# = 0 ]; then
  echo "usage: bash tools/where.sh WORD.." >&2
  exit 2
fi
cd "$(dirname "$0")/.." || exit 1
words=()
for word in "$@"; do
  words+=(-e "$word")
done
git grep --untracked -cIwF "${words[@]}" -- . ':!crates/README.md' ':!tools/where.sh' | awk -F: '
  FNR == NR {
    if (/^## /) { room = $1; sub(/^## /, "", room); rooms[++room_count] = room }
    else if (/^crsm/) { crate = $1; sub(/ .*/, "", crate); crates[++crate_count] = crate; room_of[crate] = room }
    next
  }
  {
    total += $2
    if ($1 !~ /^crates\//) { rest[++rest_count] = sprintf("  %s %d", $1, $2); next }
    split($1, at, "/")
    part = at[3]
    name = at[4] == "" ? part : substr($1, length("crates/" at[2] "/" part "/") + 1)
    if (part == "src" || part == "specs" || part == "proofs") sub(/\.(rt|antt)$/, "", name)
    key = at[2] SUBSEP part
    if (!(key in files)) parts[at[2]] = parts[at[2]] (parts[at[2]] == "" ? "" : SUBSEP) part
    files[key] = files[key] (files[key] == "" ? "" : ", ") (name == part ? "" : name " ") $2
    lines[at[2]] += $2
    seen_in[room_of[at[2]]] = 1
  }
  END {
    if (!total) { print "nothing names it" > "/dev/stderr"; exit 1 }
    for (r = 1; r <= room_count; r++) {
      if (!(rooms[r] in seen_in)) continue
      print rooms[r]
      for (c = 1; c <= crate_count; c++) {
        crate = crates[c]
        if (room_of[crate] != rooms[r] || !(crate in lines)) continue
        printf "  %s %d\n", crate, lines[crate]
        count = split(parts[crate], part_names, SUBSEP)
        for (p = 1; p <= count; p++) printf "    %s: %s\n", part_names[p], files[crate, part_names[p]]
      }
    }
    if (rest_count) print "elsewhere"
    for (i = 1; i <= rest_count; i++) print rest[i]
  }' crates.txt -
