#!/usr/bin/env bash
# The built program replays each schedule and each sheet of checks/replays: the bytes of its output, its status and its
# words on standard error are those that are stored. A case begins with `== NAME STATUS SHA256 [cut] [WORDS]`: the sum is
# that of the whole output, `cut` says that the input's last line feed is left out, and WORDS are the command, `replay`
# where there are none. Then come the input, a line `--`, the output without its send and out lines, and, where the status
# is not 0, a line `! ` with the words.
set -u
cd "$(dirname "$0")/.." || exit 1
. checks/program.bash
scratch=$(mktemp -d)
trap 'rm -rf "$scratch"' EXIT

# Each case's parts as files, and a table of the cases.
awk -v dir="$scratch" '
  /^== / {
    if (count) close_case()
    count++
    cut = ($5 == "cut")
    command = $0; sub(/^== [^ ]+ [^ ]+ [^ ]+( cut)? ?/, "", command)
    print count, $2, $3, $4, (command == "" ? "replay" : command) > (dir "/cases")
    input = dir "/" count ".in"; lines = dir "/" count ".lines"; words = dir "/" count ".words"
    printf "" > input; printf "" > lines; printf "" > words
    part = 1; started = 0
    next
  }
  /^--$/ { if (started && !cut) printf "\n" > input; part = 2; next }
  /^! / { print substr($0, 3) > words; next }
  part == 1 { if (started) printf "\n" > input; printf "%s", $0 > input; started = 1; next }
  { print > lines }
  function close_case() { close(input); close(lines); close(words) }
' checks/replays/*.cases || exit 1

fail=0
cases=0
while read -r case name status sum command; do
  cases=$((cases + 1))
  # shellcheck disable=SC2086 # the command's words
  "$program" $command < "$scratch/$case.in" > "$scratch/out" 2> "$scratch/err"
  got=$?
  [ "$got" = "$status" ] && [ "$(sha256sum < "$scratch/out")" = "$sum  -" ] && cmp -s "$scratch/err" "$scratch/$case.words" && continue
  fail=1
  echo "replays: $name: status $got, wanted $status; the output without its send and out lines, and the words:" >&2
  grep -Ev '^[0-9]+ (send|out) ' "$scratch/out" | diff - "$scratch/$case.lines" | head -n 10 >&2
  diff "$scratch/err" "$scratch/$case.words" >&2
done < "$scratch/cases"
[ "$fail" = 0 ] && echo "replays: $cases ok"
exit "$fail"
