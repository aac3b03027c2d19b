#!/usr/bin/env bash
# Real nodes under faults that are drawn from a fixed seed keep every promise that can be looked at: three nodes under all
# kinds of faults, and five of which some are killed and started again, and some are replaced for good.
set -u
cd "$(dirname "$0")/.." || exit 1
. checks/program.bash
python3 -B bench/chaos.py "$program" --nodes 3 --seconds 40 --seed 7 &&
  python3 -B bench/chaos.py "$program" --nodes 5 --seconds 15 --seed 3 --faults kill,replace
