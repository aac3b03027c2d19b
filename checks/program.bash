# Sourced by a check at the top of the repository: `program` is then the path of the built program, which is built first
# where it is missing.
program=crates/crsm/out/crsm
[ -x "$program" ] || (cd crates/crsm && rt run >/dev/null 2>&1)
if [ ! -x "$program" ]; then
  echo "$(basename "$0" .sh): no program at $program" >&2
  exit 1
fi
