#!/usr/bin/env bash
# A first cluster from a fresh clone, in two minutes: three nodes, a client, a kill, an answer all the same.
#
#   first_cluster.sh [FOLDER [PORT]]   FOLDER (/tmp/crsm-first, where none is given) gets the program and the nodes'
#                                      files, and the nodes listen at 127.0.0.1:PORT and the two ports above (7000)
#
# The program is compiled WITHOUT PROOFS (tools/unproved.py), so nothing that README claims as proved is claimed of it.
# A program that FOLDER has is taken as it is. The nodes are ended at the end; their logs and sheets stay.
set -u
top=$(cd "$(dirname "$0")/.." && pwd) || exit 1
folder=${1:-/tmp/crsm-first} port=${2:-7000}
mkdir -p "$folder" || exit 1
folder=$(realpath "$folder")
program=$folder/crsm-unproved
cluster=$top/examples/cluster.sh

say() { printf '\n# %s\n' "$*"; }

# Shows a command of client 7, and runs it on the node at port $1.
ask() {
  printf '$ crsm client 127.0.0.1:%s 60000 7 %s\n' "$1" "${*:2}"
  "$program" client "127.0.0.1:$1" 60000 7 "${@:2}" || exit 1
}

if [ ! -x "$program" ]; then
  say "Compiling the program without proofs: a minute and a half on four processors"
  python3 "$top/tools/unproved.py" "$program" || exit 1
fi
trap 'bash "$cluster" stop "$folder/nodes"' EXIT
rm -rf "$folder/nodes"
say "Nodes 0, 1 and 2 start"
bash "$cluster" start "$program" "$folder/nodes" "$port" >/dev/null || exit 1
# A client's numbers rise, also from one start of this script to the next.
number=$(date +%s%N)
say "Node 0 puts the value 62 at the key 61"
ask "$port" "$number" put 61 62
say "Node 1 reads it"
ask "$((port + 1))" "$((number + 1))" get 61
say "kill -9 of node 2. A command waits until the others have ended the epoch without it: 5 seconds"
bash "$cluster" kill "$folder/nodes" 2
ask "$port" "$((number + 2))" put 61 63
say "Node 2 is started again on its log, is taken in, and reads what was put without it"
bash "$cluster" restart "$program" "$folder/nodes" 2 >/dev/null || exit 1
ask "$((port + 2))" "$((number + 3))" get 61
say "This program is UNPROVED. To prove all and link the proved program, in one to two hours, at the top of the clone:"
echo "rt all check --jobs 4 && (cd crates/crsm && rt run -- replay < ../../examples/first.schedule)"
