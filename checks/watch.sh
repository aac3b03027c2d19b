#!/usr/bin/env bash
# The live table shows what a cluster of three real nodes does: commands that are executed, a node that is killed, and
# one that is started again; and a sheet that a command writes is followed as one in a folder is.
set -u
cd "$(dirname "$0")/.." || exit 1
. checks/program.bash
scratch=$(mktemp -d)
trap 'bash examples/cluster.sh stop "$scratch"; rm -rf "$scratch"' EXIT

fail() {
  printf '%s\n' "$@" >&2
  echo "watch: the table above lacks what was looked for" >&2
  exit 1
}

# Prints the table until its rows are as these patterns say, in their order, for 20 seconds at most.
shows() {
  local until=$((SECONDS + 20)) table row words
  while :; do
    table=$(timeout 60 python3 -B -W error tools/watch.py "$scratch" --program "$program" --once 2>&1)
    row=1
    for words in "$@"; do
      row=$((row + 1))
      sed -n "${row}p" <<<"$table" | grep -qE "^ +$words" || { row=0; break; }
    done
    [ "$row" != 0 ] && return
    [ "$SECONDS" -gt "$until" ] && fail "$table" "looked for: $words"
  done
}

port=$(python3 -c 'import random; print(random.randrange(20000, 30000))')
bash examples/cluster.sh start "$program" "$scratch" "$port" >/dev/null || exit 1
nodes=127.0.0.1:$port,127.0.0.1:$((port + 1))
for value in 1 2 3; do
  (cd clients/python && python3 -B -W error -m crsm put k "$value" --nodes "$nodes" --state "$scratch/state") || exit 1
done
# (a node that was slow to answer was asked again, and each copy of a command is an entry)
shows '0  live +0  0,1,2 +[6-9] ' '1  live +0  0,1,2 +[6-9] ' '2  live +0  0,1,2 +[6-9] '

bash examples/cluster.sh kill "$scratch" 2
shows '0  live +[1-9][0-9]*  0,1 ' '1  live +[1-9][0-9]*  0,1 ' '2  down +0  0,1,2 +[6-9] .* [0-9.]+ kB  - *$'

bash examples/cluster.sh restart "$program" "$scratch" 2 || exit 1
shows '0  live .* 0,1,2 ' '1  live .* 0,1,2 ' '2  live +[1-9][0-9]*  0,1,2 +[0-9]+ '

told=$(timeout 60 python3 -B -W error tools/watch.py --program "$program" --once --began-with 3 \
  --command "1=tail -c +1 -F '$scratch/1/sheet-0' 2>/dev/null")
grep -qE '^ +1  live +[1-9][0-9]*  0,1,2 +[0-9]+ ' <<<"$told" || fail "$told"
echo "watch: ok"
