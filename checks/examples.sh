#!/usr/bin/env bash
# The built program replays each schedule of examples/ and writes its transcript.
set -u
cd "$(dirname "$0")/.." || exit 1
. checks/program.bash
fail=0
for schedule in examples/*.schedule; do
  if ! "$program" replay < "$schedule" | cmp - "${schedule%.schedule}.transcript"; then
    echo "examples: the transcript of $schedule differs" >&2
    fail=1
  fi
done
[ "$fail" = 0 ] && echo "examples: ok"
exit "$fail"
