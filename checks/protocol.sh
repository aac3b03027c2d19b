#!/usr/bin/env bash
# Each definition that docs/PROTOCOL.md names as `File.definition` stands in that file of crsm_spec, or of crsm_base.
set -u
cd "$(dirname "$0")/.." || exit 1
fail=0
while IFS=. read -r file name; do
  if ! grep -qE "^((unfoldable|abbrev) pub|pub (record|data)) $name( |\$)" "crates/crsm_spec/specs/$file.antt" \
    "crates/crsm_base/specs/$file.antt" 2>/dev/null; then
    echo "protocol: no $name in specs/$file.antt of crsm_spec or of crsm_base" >&2
    fail=1
  fi
done < <(grep -oE '`[A-Z][A-Za-z]*\.[A-Za-z_]+`' docs/PROTOCOL.md | tr -d '`' | grep -v '\.antt$' | grep -vE '^File\.definition$|\.md$' | sort -u)
[ "$fail" = 0 ] && echo "protocol: ok"
exit "$fail"
