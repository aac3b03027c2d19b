#!/usr/bin/env bash
# The pictures of examples/ are those that tools/picture.py draws; `--write` draws them anew.
set -u
cd "$(dirname "$0")/.." || exit 1
for schedule in examples/*.schedule; do
  name=${schedule%.schedule}
  if [ "${1:-}" = --write ]; then
    python3 -B tools/picture.py "$schedule" < "$name.transcript" > "$name.svg" || exit 1
  elif ! python3 -B tools/picture.py "$schedule" < "$name.transcript" | cmp - "$name.svg"; then
    echo "pictures: $name.svg is not drawn so; bash checks/pictures.sh --write" >&2
    exit 1
  fi
done
echo "pictures: ok"
