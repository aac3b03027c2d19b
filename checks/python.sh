#!/usr/bin/env bash
# The Python client passes its tests against a small node on this machine, can be installed from its folder and from its
# packed sources without a network, and sees of real nodes what the table of behaviours has, whose lists decide.
set -u
cd "$(dirname "$0")/.." || exit 1
. checks/program.bash
scratch=$(mktemp -d)
trap 'rm -rf "$scratch"' EXIT

tests() { (cd clients/python && python3 -B -W error -m unittest discover -q); }

install() {
  (cd clients/python && cp -r crsm README.md pyproject.toml wheel_of.py "$scratch" &&
    python3 -B -c 'import sys, wheel_of; wheel_of.build_sdist(sys.argv[1])' "$scratch") || return 1
  local from to
  for from in "$scratch" "$scratch"/crsm-*.tar.gz; do
    to=$(mktemp -d -p "$scratch")
    python3 -m pip install -q --no-index --disable-pip-version-check --root-user-action=ignore \
      --target "$to" "$from" &&
      (cd "$to" && python3 -B -W error -c 'import crsm.aio; crsm.Client(["127.0.0.1:1"]).close()' &&
        PYTHONPATH=. PYTHONDONTWRITEBYTECODE=1 bin/crsm-client --version) || return 1
  done
}

behaviours() { python3 -B -W error bench/behaviours.py "$program"; }

for step in tests install behaviours; do
  if ! told=$($step 2>&1); then
    printf '%s\n' "$told" >&2
    echo "python: $step failed" >&2
    exit 1
  fi
done
echo "python: ok"
