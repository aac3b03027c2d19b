#!/usr/bin/env bash
# A collection of 4,097 entries above its base is refused: the schedule that brings one about is made here, since it has
# 45,077 lines, and the sum of what the built program writes is the one that an independent implementation gave.
set -u
cd "$(dirname "$0")/.." || exit 1
. checks/program.bash

schedule() {
  awk 'BEGIN {
    print "replicas 3"
    for (k = 1; k <= 4097; k++) {
      n = 10 * (k - 1)
      t = 10 * k
      print "request 0 " t " 7 " k " get 61"
      for (i = 0; i < 2; i++) print "go " n + i " " t + 5
      split("2 3 5 6", go)
      for (i = 1; i <= 4; i++) print "go " n + go[i] " " t + 6
      split("4 7 8 9", lost)
      for (i = 1; i <= 4; i++) print "lose " n + lost[i]
    }
    print "crash 0"
    print "suspect 1 50000 1,2"
    for (i = 0; i < 7; i++) print "settle 50001"
  }'
}

wanted=0da4ef94ab1ec6efe66a150763dfc1e554ed0510c507f10ab834e6459e249e2b
output=$(mktemp) || exit 1
trap 'rm -f "$output"' EXIT
schedule | "$program" replay > "$output" || { echo "too_many: the replay failed" >&2; exit 1; }
if ! grep -qx '45076 toomany 1 0 4097 147492' "$output"; then
  echo "too_many: the line of the refused collection is missing" >&2
  exit 1
fi
if [ "$(sha256sum < "$output")" != "$wanted  -" ]; then
  echo "too_many: the transcript differs" >&2
  exit 1
fi
echo "too_many: ok"
