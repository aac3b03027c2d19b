#!/usr/bin/env bash
# The repository is its own reader's only source: no citation by a bare number stands in it.
set -u
cd "$(dirname "$0")/.." || exit 1
fail=0
pattern='(^|[^A-Za-z0-9_{])(D([1-9]|[12][0-9]|30)|T[1-6]\.[0-9]|W([1-9]|1[0-6])|P([1-9]|1[0-9]|2[01])|R([1-9]|1[0-9]|20))([^A-Za-z0-9_]|$)'
if git grep -nIE "$pattern" -- '*.rt' '*.antt' '*.md' '*.edit' '*.sh' '*.py' ':!checks/stands_alone.sh'; then
  echo "stands alone: the lines above cite something by a number" >&2
  fail=1
fi
if [ "$(cat HANDLES)" != 'Handles allowed: Net, Processes.' ]; then
  echo "stands alone: HANDLES is not its one line" >&2
  fail=1
fi
[ "$fail" = 0 ] && echo "stands alone: ok"
exit "$fail"
