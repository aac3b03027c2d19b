#!/usr/bin/env bash
# No branch is added that no reachable state takes and that is not proved unreachable: such a branch calls `never`. A
# crate has at most as many of these calls as the list at the end says. With --write the list is written anew.
set -u
cd "$(dirname "$0")/.." || exit 1
list=checks/impossible.sh
count() {
  for source in crates/*/src; do
    calls=$(grep -rhE '\bnever\(\)' --include='*.rt' "$source" | grep -vcE '^ *//|fn never\(\)')
    [ "$calls" = 0 ] || echo "$(basename "$(dirname "$source")") $calls"
  done
}
stored() {
  sed -n '/^# list$/,$s/^# \(crsm_[a-z_]* [0-9]*\)$/\1/p' "$list"
}
if [ "${1:-}" = --write ]; then
  found=$(count)
  sed -i '/^# list$/q' "$list"
  [ -z "$found" ] || sed 's/^/# /' <<< "$found" >> "$list"
fi
declare -A most=()
while read -r crate calls; do
  most[$crate]=$calls
done < <(stored)
fail=0
while read -r crate calls; do
  may=${most[$crate]:-0}
  if [ "$calls" -gt "$may" ]; then
    echo "impossible: $crate calls never() $calls times where $may are known; prove the new branch unreachable" >&2
    fail=1
  elif [ "$calls" -lt "$may" ]; then
    echo "impossible: $crate has fewer, $calls of $may; bash $list --write"
  fi
done < <(count)
[ "$fail" = 0 ] && echo "impossible: ok"
exit "$fail"
# list
# crsm_mpreplica 1
# crsm_mpworld 1
# crsm_sim_machine 1
