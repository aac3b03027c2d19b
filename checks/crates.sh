#!/usr/bin/env bash
# crates/README.md is the page that tools/crates.sh makes of crates.txt and of the heads of the crates.
set -u
cd "$(dirname "$0")/.." || exit 1
if ! bash tools/crates.sh | diff crates/README.md -; then
  echo "crates: crates/README.md is stale; bash tools/crates.sh --write" >&2
  exit 1
fi
echo "crates: ok"
