#!/usr/bin/env bash
# Worked examples compute through every definition: a file of their crate's proofs names each that stays shut otherwise.
# With --write the lists are written anew.
set -u
cd "$(dirname "$0")/.." || exit 1
names() {
  for crate in "$@"; do
    for file in crates/$crate/specs/*.antt; do
      sed -n "s|^unfoldable pub \([^ ]*\) :.*|Rattle.$crate.specs.$(basename "$file" .antt).\1|p" "$file"
    done
  done
}
while read -r law file crates; do
  list=crates/$law/proofs/$file.antt
  if [ "${1:-}" = --write ]; then
    {
      echo '-- A name whose `unfolding` line opens every definition of the protocol, for proofs by computation.'
      echo 'use Rattle.std.proofs.Common.{ℕ}'
      echo
      echo 'unfoldable pub the_model : ℕ'
      names $crates | paste -d ' ' - - - - - - | sed -e 's/ *$//' -e '1s/^/unfolding /' -e '2,$s/^/    /'
      echo 'the_model = 0'
    } > "$list"
  fi
  if ! diff <(names $crates | sort) <(grep -o 'Rattle\.crsm_[a-z]*\.specs\.[^ ]*' "$list" | sort); then
    echo "opened: $list differs from the definitions; bash checks/opened.sh --write" >&2
    exit 1
  fi
done <<'END'
crsm_law_examples Opened crsm_base crsm_spec
crsm_law_examples LeaderOpened crsm_base crsm_spec crsm_mpspec
crsm_law_timing Opened crsm_base crsm_spec
END
echo "opened: ok"
