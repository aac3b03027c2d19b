#!/usr/bin/env bash
# Nothing but the log is written into a node's log file, whichever of its standard streams are closed when it starts,
# and whatever else is open on that file; and each command that is started without some of them ends with the status
# that docs/OPERATING.md has for it. The nodes are clusters of one, at ports from 27301 on.
set -u
cd "$(dirname "$0")/.." || exit 1
. checks/program.bash
program=$(realpath "$program")
schedule=$(realpath "$(printf '%s\n' examples/*.schedule | head -n 1)")
scratch=$(mktemp -d) || exit 1
trap 'kill $(jobs -p) 2>/dev/null; wait 2>/dev/null; rm -rf "$scratch"' EXIT
TURNS=3000
SUBSETS='- i o e io ie oe ioe'

fail() { echo "streams: $*" >>"$scratch/failed"; }

# Runs the words behind $1 without the streams whose letters $1 has: i, o and e.
without() {
  local closed=$1 redirections=
  shift
  [[ $closed == *i* ]] && redirections+=' <&-'
  [[ $closed == *o* ]] && redirections+=' >&-'
  [[ $closed == *e* ]] && redirections+=' 2>&-'
  eval '"$@"'"$redirections"
}

# Runs the words behind $2 and $3, and says so where their status is not $2; $1 says what they are.
expect() {
  local what=$1 wanted=$2 got
  shift 2
  "$@"
  got=$?
  [ "$got" = "$wanted" ] || fail "$what: status $got, wanted $wanted"
}

# Asks the node at port $1 for the command $2 until it is answered $3: a node that is started again on its log takes no
# part before it is taken in.
ask() {
  local at=127.0.0.1:$1 number got try
  number=$(date +%s%N)
  for try in {1..30}; do
    # shellcheck disable=SC2086 # the command's words
    got=$("$program" client "$at" 1000 1 "$number" $2 2>&1)
    [ "$got" = "$3" ] && return
    [[ $got == no\ * ]] || break
    "$program" operate "$at" 0
    sleep 0.1
  done
  fail "port $1: '$2' is answered '$got', wanted '$3' (asked $try times)"
}

# Asks the node at port $1 to put the first or the second key, or for its value.
put1() { ask "$1" 'put 61 31' 'ok done'; }
put2() { ask "$1" 'put 62 32' 'ok done'; }
get1() { ask "$1" 'get 61' 'ok found 31'; }
get2() { ask "$1" 'get 62' 'ok found 32'; }

# Runs a node in folder $1 at port $2 without the streams $3, asks it for what stands behind these, and answers the
# node's status.
node() {
  local folder=$1 port=$2 closed=$3 node asked
  shift 3
  (cd "$folder" && without "$closed" "$program" node 0 1 $TURNS "127.0.0.1:$port" </dev/null >sheet 2>errors) &
  node=$!
  for asked in "$@"; do "$asked" "$port"; done
  wait "$node"
}

# The log of folder $1 begins with what it had before: all up to its closed gate, which the next entry opens.
keep() { cp "$1/crsm-0.log" "$1/before"; }
kept() {
  local most
  most=$(python3 -B -c 'import sys; sys.path.insert(0, "bench"); from nodes import closed_gate
print(closed_gate(open(sys.argv[1], "rb").read()))' "$1/before")
  cmp -s -n "$most" "$1/before" "$1/crsm-0.log" || fail "$1: the log does not begin with what it held before"
}

# A node without the streams $1 at port $2, whose folder has a log before where $3 is `log`.
closed_streams() {
  local closed=$1 port=$2 folder=$scratch/$1-$3 answers=()
  mkdir "$folder"
  if [ "$3" = log ]; then
    expect "$folder, before" 0 node "$folder" "$port" - put1
    answers+=(get1)
    keep "$folder"
  fi
  if [[ $closed == *o* ]]; then
    # It ends at its first line.
    expect "$folder" 5 node "$folder" "$port" "$closed"
  else
    expect "$folder" 0 node "$folder" "$port" "$closed" put2
    answers+=(get2)
  fi
  [ "$3" = log ] && kept "$folder"
  keep "$folder"
  expect "$folder, started again" 0 node "$folder" "$port" - "${answers[@]}"
  kept "$folder"
}

# Each command but `node`, without the streams $1: client $3 asks the node at port $2.
commands() {
  local closed=$1 at=127.0.0.1:$2 client=$3 output=0 input=0
  [[ $closed == *o* ]] && output=5 input=5
  [[ $closed == *i* ]] && input=4
  expect "replay without $closed" $input without "$closed" "$program" replay <"$schedule"
  expect "audit without $closed" $input without "$closed" "$program" audit 1 <"$scratch/sheets"
  expect "client without $closed" $output without "$closed" "$program" client "$at" $TURNS "$client" 1 get 61 </dev/null
  expect "lock without $closed" $output without "$closed" "$program" lock "$at" $TURNS "$client" 2 6c take </dev/null
  expect "operate without $closed" 0 without "$closed" "$program" operate "$at" 0 </dev/null
}

# Runs a node in folder $1 with the redirections $2, by the words behind them.
tried() {
  local folder=$1 redirections=$2
  shift 2
  eval "(cd '$folder' && exec '$program' node $* </dev/null 2>errors $redirections)"
}

# A node in folder $1 with the redirections $4 is refused with status $2 and words that have $3, and its log stays as it
# was.
refused() {
  local folder=$1 wanted=$2 words=$3 how="a node $4"
  cp "$folder/crsm-0.log" "$folder/before" 2>/dev/null || : >"$folder/before"
  : >"$folder/errors"
  expect "$how" "$wanted" tried "$folder" "$4" 0 1 50 "127.0.0.1:$port"
  [ -z "$words" ] || grep -qF "$words" "$folder/errors" || fail "$how: it says '$(tail -n 1 "$folder/errors")'"
  cmp -s "$folder/before" "$folder/crsm-0.log" || fail "$how: the log has changed"
}

# What else may be open on the log of a node at port $1, or reach it by another name.
other_ways() {
  local port=$1 a=$scratch/a b=$scratch/b c=$scratch/c running
  mkdir "$a" "$b" "$c" "$scratch/new"
  expect "$a" 0 node "$a" "$port" - put1
  refused "$scratch/new" 7 'standard output goes to it' '>crsm-0.log'
  refused "$a" 7 'standard output goes to it' '>>crsm-0.log'
  refused "$a" 7 'standard output goes to it' '1<>crsm-0.log'
  refused "$a" 7 '' '>sheet 2>>crsm-0.log'
  refused "$a" 7 '' '>>crsm-0.log 2>&1'
  ln -s nothing "$b/crsm-0.log"
  expect "a link to no file" 7 tried "$b" '>sheet' 0 1 50 "127.0.0.1:$port"
  ln -sf "$a/crsm-0.log" "$b/crsm-0.log"
  expect "a link to a log" 0 node "$b" "$port" - get1
  ln "$a/crsm-0.log" "$b/crsm-1.log"
  expect "another node's log" 10 tried "$b" '>sheet' 1 2 50 "127.0.0.1:$((port + 1)),127.0.0.1:$port"
  keep "$a"
  (cd "$a" && exec "$program" node 0 1 $TURNS "127.0.0.1:$port" </dev/null >sheet 2>errors 9>>crsm-0.log) &
  running=$!
  put2 "$port"
  ln "$a/crsm-0.log" "$c/crsm-0.log"
  expect "a log in use" 7 tried "$c" '>sheet' 0 1 50 "127.0.0.1:$((port + 1))"
  grep -qF 'in use' "$c/errors" || fail "a log in use: it says '$(cat "$c/errors")'"
  expect "a log that is open elsewhere" 0 wait $running
  kept "$a"
  expect "$a, started again" 0 node "$a" "$port" - get1 get2
}

port=27301
others=()
for closed in $SUBSETS; do
  for log in log none; do
    closed_streams "$closed" $port $log &
    others+=($!)
    port=$((port + 1))
  done
done
other_ways $port &
others+=($!)
port=$((port + 2))

mkdir "$scratch/asked"
node "$scratch/asked" $port - put1
{ echo 'node 0'; cat "$scratch/asked/sheet"; } >"$scratch/sheets"
(cd "$scratch/asked" && exec "$program" node 0 1 100000 127.0.0.1:$port </dev/null >sheet 2>errors) &
client=100
for closed in $SUBSETS; do
  commands "$closed" $port $client >/dev/null 2>&1
  client=$((client + 1))
done
wait "${others[@]}"
if [ -e "$scratch/failed" ]; then
  cat "$scratch/failed" >&2
  exit 1
fi
echo "streams: ok"
