#!/usr/bin/env bash
# A cluster of three nodes on this machine, each in a folder of its own.
#
#   cluster.sh start PROGRAM FOLDER [PORT]   starts nodes 0, 1 and 2 at 127.0.0.1:PORT and the two ports above it (7000
#                                            where no port is given), and waits until each has answered
#   cluster.sh kill FOLDER NODE              ends one of them
#   cluster.sh restart PROGRAM FOLDER NODE   starts one of them again on its log, and has it taken in
#   cluster.sh replace PROGRAM FOLDER OLD NEW  starts number NEW, 3 or 4, in the place of a node that is gone for good
#   cluster.sh grow PROGRAM FOLDER NEW..     starts numbers that are new, 3, 4 or both, beside those that run
#   cluster.sh shrink PROGRAM FOLDER OLD..   takes nodes out of the cluster for good, and ends them
#   cluster.sh upgrade PROGRAM FOLDER        starts all nodes again, one after another, with a program that may be new:
#                                            each leaves before it is ended, so that no client waits for it
#   cluster.sh stop FOLDER                   ends all of them
#
# A node's folder has its log (crsm-N.log), its sheets (sheet-K, one for each start) and what it says on standard error.
# Nothing is lost when a node is ended, however that is done: what it has answered is in the logs.
set -u

# Three nodes, and two more addresses for those that take the place of one that is lost.
BEGAN_WITH=3
ADDRESSES=5

usage() { sed -n '2,17s/^# \{0,1\}//p' "$0" >&2; exit 2; }

# The address of node $1 of the cluster in folder $2.
address() { cut -d, -f$(($1 + 1)) "$2/peers"; }

# Starts node $1; the program is $2 and the cluster's folder $3.
start_node() {
  local peers folder=$3/$1 boot=0
  peers=$(cat "$3/peers") || exit 1
  mkdir -p "$folder"
  while [ -e "$folder/sheet-$boot" ]; do boot=$((boot + 1)); done
  (cd "$folder" && exec "$2" node "$1" $BEGAN_WITH 1000000000000 "$peers" >"sheet-$boot" 2>>errors </dev/null) &
  echo $! >"$folder/pid"
}

# Waits until node $1 has done a command; the program is $2 and the folder $3. A node that takes no part yet says `no`.
await_node() {
  local number
  number=$(date +%s%N)
  for _ in {1..40}; do
    case $("$2" client "$(address "$1" "$3")" 500 "$((1000 + $1))" "$number" get 00 2>/dev/null) in
    ok*) return ;;
    esac
    sleep 0.5
  done
  echo "cluster.sh: node $1 has not answered; see $3/$1/errors" >&2
  exit 1
}

kill_node() { [ -e "$2/$1/pid" ] && kill -9 "$(cat "$2/$1/pid")" 2>/dev/null; rm -f "$2/$1/pid"; }

# The members, with commas: all nodes that run.
members() {
  local node list=
  for node in $(seq 0 $((ADDRESSES - 1))); do [ -e "$1/$node/pid" ] && list=$list,$node; done
  echo "${list#,}"
}

# Asks a node for the members $1; the node is the first of $2 that is not $3, the program $4 and the folder $5.
ask_for() {
  local via
  for via in ${2//,/ }; do [ "$via" != "$3" ] && break; done
  # Twice: a request may be lost, or overtaken by what the node asks for by itself.
  for _ in 1 2; do
    sleep 1
    "$4" operate "$(address "$via" "$5")" "$1"
  done
}

# Has node $1 taken in by another one, which is asked for all that run; the program is $2 and the folder $3.
take_in() {
  local all
  all=$(members "$3")
  ask_for "$all" "$all" "$1" "$2" "$3"
  await_node "$1" "$2" "$3"
}

# The numbers of the list $1 without those behind it, with commas.
without() { comm -23 <(tr , '\n' <<<"$1" | sort) <(printf '%s\n' "${@:2}" | sort) | paste -sd, -; }

# Starts node $1 again in such a way that no client waits for it; the program is $2 and the folder $3.
start_again() {
  local all others node
  all=$(members "$3")
  others=$(without "$all" "$1")
  ask_for "$others" "$others" "$1" "$2" "$3"
  for node in ${others//,/ }; do await_node "$node" "$2" "$3"; done
  kill_node "$1" "$3"
  start_node "$1" "$2" "$3"
  take_in "$1" "$2" "$3"
}

[ $# -ge 2 ] || usage
case $1 in
start)
  [ $# -ge 3 ] || usage
  program=$(realpath "$2") port=${4:-7000}
  mkdir -p "$3"
  folder=$(realpath "$3")
  seq -s, -f "127.0.0.1:%.0f" "$port" $((port + ADDRESSES - 1)) >"$folder/peers"
  for node in 0 1 2; do start_node $node "$program" "$folder"; done
  for node in 0 1 2; do await_node $node "$program" "$folder"; done
  echo "nodes 0, 1 and 2 listen at $(cut -d, -f1-3 "$folder/peers"); to ask one of them:"
  echo "  $2 client $(address 0 "$folder") 5000 7 1 put 61 62"
  echo "  $2 client $(address 1 "$folder") 5000 7 2 get 61"
  echo "to end them: $0 stop $3"
  ;;
kill) [ $# = 3 ] || usage; kill_node "$3" "$(realpath "$2")" ;;
restart)
  [ $# = 4 ] || usage
  program=$(realpath "$2") folder=$(realpath "$3")
  kill_node "$4" "$folder"
  start_node "$4" "$program" "$folder"
  take_in "$4" "$program" "$folder"
  ;;
replace)
  [ $# = 5 ] || usage
  program=$(realpath "$2") folder=$(realpath "$3")
  kill_node "$4" "$folder"
  start_node "$5" "$program" "$folder"
  take_in "$5" "$program" "$folder"
  ;;
grow)
  [ $# -ge 4 ] || usage
  program=$(realpath "$2") folder=$(realpath "$3") now=$(members "$3")
  for node in "${@:4}"; do start_node "$node" "$program" "$folder"; done
  ask_for "$(members "$folder")" "$now" none "$program" "$folder"
  for node in "${@:4}"; do await_node "$node" "$program" "$folder"; done
  ;;
shrink)
  [ $# -ge 4 ] || usage
  program=$(realpath "$2") folder=$(realpath "$3")
  left=$(without "$(members "$folder")" "${@:4}")
  ask_for "$left" "$left" none "$program" "$folder"
  for node in ${left//,/ }; do await_node "$node" "$program" "$folder"; done
  for node in "${@:4}"; do kill_node "$node" "$folder"; done
  ;;
upgrade)
  [ $# = 3 ] || usage
  program=$(realpath "$2") folder=$(realpath "$3") now=$(members "$3")
  for node in ${now//,/ }; do start_again "$node" "$program" "$folder"; done
  ;;
stop) folder=$(realpath "$2"); for node in $(seq 0 $((ADDRESSES - 1))); do kill_node "$node" "$folder"; done ;;
*) usage ;;
esac
