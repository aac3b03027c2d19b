#!/usr/bin/env bash
# Real nodes whose disk loses its power: whatever of the unsynced writes has reached the log, each next start opens it,
# and nothing that was answered is missing, also where a sync of a gate had failed before. A disk on which syncs keep
# nothing is found out. Where syncs are slow, a loss takes groups of many turns.
set -u
cd "$(dirname "$0")/.." || exit 1
. checks/program.bash
python3 -B bench/power.py "$program" --nodes 1 --cuts 50 --seed 5 &&
  python3 -B bench/power.py "$program" --nodes 3 --cuts 25 --seed 6 &&
  python3 -B bench/power.py "$program" --nodes 3 --cuts 15 --seed 7 --clients 192 --slow 5 &&
  python3 -B bench/power.py "$program" --nodes 1 --cuts 25 --seed 2 --fails &&
  python3 -B bench/power.py "$program" --nodes 1 --cuts 25 --seed 7 --lies
