#!/usr/bin/env bash
# A log that is spoilt at one place is refused by the name of an entry, or opened; one whose end alone is missing, or that
# has bytes behind its end, never opens with other bodies.
set -u
cd "$(dirname "$0")/.." || exit 1
. checks/program.bash
python3 -B bench/spoilt.py "$program" --places 63 --seed 3
