#!/usr/bin/env bash
# crates.txt keeps to the rooms: they stand from the lowest to the highest, and a crate uses crates of its own room and of
# lower rooms alone. Law crates stand beside the running code, so that neither is proved again when the other changes: a
# law crate uses definitions, facts and laws, and what `speaks_of` names since its laws are of that; of the crates with
# running code only those that `cites_laws` names use laws. A crate named crsm_ROOM_* stands in that room.
# Another list can be checked: bash checks/layers.sh FILE.
set -u
cd "$(dirname "$0")/.." || exit 1
list=${1:-crates.txt}
rooms=(spec fact text port replica law sim mp cmd test)
cites_laws=' crsm_sim_schedule crsm_world crsm_mpreplay crsm_audit crsm_delay crsm_cmd_soak crsm_app '
defines=' crsm_mpspec '
declare -A speaks_of=(
  [crsm_law_texts]=' crsm_text crsm_schedule hex '
  [crsm_law_locks]=' crsm_lease '
  [crsm_law_draws]=' crsm_sim_generator crsm_schedule crsm_world '
  [crsm_law_shown]=' crsm_port crsm_client crsm_lease crsm_cmd_lock '
  [crsm_law_wishes]=' crsm_replica_io crsm_shell crsm_replica_detector '
  [crsm_law_alarms]=' crsm_codec crsm_ledger crsm_text_sheet crsm_audit '
  [crsm_law_processes]=' crsm_codec crsm_ledger '
  [crsm_law_restarts]=' crsm_port_faults crsm_clock crsm_disk crsm_io crsm_ledger crsm_log crsm_port crsm_replica_io crsm_replica_output crsm_replica_detector crsm_shell crsm_node '
  [crsm_law_worked]=' crsm_port_image crsm_clock crsm_disk crsm_ledger crsm_log crsm_port crsm_replica_io crsm_replica_output crsm_replica_detector crsm_shell crsm_text_sheet crsm_node '
  [crsm_law_killed]=' crsm_clock crsm_disk crsm_io crsm_port crsm_port_faults crsm_port_image crsm_node '
  [crsm_law_parts]=' crsm_wire crsm_replica_output '
  [crsm_law_nodes]=' crsm_ledger crsm_schedule crsm_text_sheet crsm_wire crsm_port_peers crsm_replica_rerun '
)

declare -A rank=() room_of=() uses=()
fail=0
wrong() {
  echo "layers: $1" >&2
  fail=1
}

read_list() {
  local line room='' place=0 crate
  while IFS= read -r line; do
    if [[ $line == '## '* ]]; then
      room=${line#\#\# }
      room=${room%%:*}
      [ "$room" = "${rooms[place]:-}" ] || wrong "room $room stands where ${rooms[place]:-no room} is to stand"
      rank[$room]=$place
      place=$((place + 1))
    fi
    line=${line%%#*}
    [[ $line == *:* ]] || continue
    read -r crate _ <<<"${line%%:*}"
    [ -n "$room" ] || wrong "$crate stands in no room"
    [ -z "${room_of[$crate]:-}" ] || wrong "$crate stands there twice"
    room_of[$crate]=$room
    uses[$crate]=${line#*:}
  done <"$list"
  [ "$place" = "${#rooms[@]}" ] || wrong "$list has $place rooms of ${#rooms[@]}"
  [ "${#room_of[@]}" != 0 ] || wrong "no crate stands in $list"
}

check_name() {
  [[ $1 =~ ^crsm_([a-z]+)_ ]] || return
  [[ " ${rooms[*]} " == *" ${BASH_REMATCH[1]} "* ]] || return
  [ "${BASH_REMATCH[1]}" = "${room_of[$1]}" ] || wrong "$1 stands in room ${room_of[$1]}"
}

# A library of the kit has no room.
check_use() {
  local crate=$1 used=$2 room=${room_of[$1]} other=${room_of[$2]:-}
  if [ "$room" = law ]; then
    [[ " spec fact law " == *" ${other:-kit} "* || "$defines${speaks_of[$crate]:-}" == *" $used "* ]] ||
      wrong "the law crate $crate uses $used, which has no definitions, facts or laws"
  elif [ "$other" = law ]; then
    [[ $room == test || $cites_laws == *" $crate "* ]] || wrong "$crate uses the law crate $used"
  elif [ -n "$other" ] && ((rank[$other] > rank[$room])); then
    wrong "$crate of room $room uses $used of the higher room $other"
  fi
}

read_list
[ "$fail" = 0 ] || exit 1
for crate in "${!room_of[@]}"; do
  check_name "$crate"
  for used in ${uses[$crate]}; do
    check_use "$crate" "$used"
  done
done
[ "$fail" = 0 ] && echo "layers: ok"
exit "$fail"
