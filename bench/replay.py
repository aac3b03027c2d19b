"""Replay: events a second of a schedule, also as a ratio to another program's.

    python3 bench/replay.py [--requests COUNT] [--replicas N] [--schedule FILE]
        [--leader settles|deliveries|boots|drawn] [--runs COUNT] [-- COMMAND ..]

The schedule is one of requests, or that of the file; with --leader it is replayed by `replay-mp`, as `schedule.py` says,
or drawn by `drawn.py`, with COUNT for what is counted there. The other program reads the same schedule from its standard
input. The two run by turns, the other one less often since it may be slow, and of each the fastest run counts. A run
that is timed writes to the null device, and the two outputs are compared apart from that.
"""

import argparse
import sys
from subprocess import DEVNULL

from drawn import drawn
from schedule import schedule
from timing import RUNS, program, run_once

REQUESTS = 12_000
REPLICAS = 5
OURS_A_TURN = 4


def arguments():
    """What the command line says: how many requests, to how many replicas, and the other program's words."""
    parser = argparse.ArgumentParser(description=__doc__)
    parser.add_argument("--requests", type=int, default=REQUESTS)
    parser.add_argument("--replicas", type=int, default=REPLICAS)
    parser.add_argument("--schedule", help="a file to be replayed in place of requests")
    parser.add_argument(
        "--leader", choices=["settles", "deliveries", "boots", "drawn"], help="replay it over a store with a leader"
    )
    parser.add_argument("--runs", type=int, default=RUNS, help="how often the programs take turns")
    parser.add_argument("command", nargs="*")
    return parser.parse_args()


def seconds_of(command, schedules):
    """The processor time of the whole schedule and of the short one, while nobody reads the output."""
    return [run_once(command, given, DEVNULL)[0] for given in schedules]


def rate(schedules, times):
    """Events a second beyond the time of the short schedule, by the fastest run of each."""
    whole, one = schedules
    long, short = (min(column) for column in zip(*times))
    return (whole.count(b"\n") - one.count(b"\n")) / max(long - short, 1e-9)


def schedules_of(asked):
    """The whole schedule, and a short one, whose time is that of a start."""
    if asked.leader == "drawn":
        whole = "".join(f"{line}\n" for line in drawn(asked.requests, asked.replicas)).encode()
    elif asked.schedule is not None:
        with open(asked.schedule, "rb") as file:
            whole = file.read()
    else:
        return tuple(schedule(count, asked.replicas, asked.leader) for count in (asked.requests, 1))
    return whole, whole[: whole.index(b"\n") + 1]


def main():
    """Prints the rates, and ends with status 1 where the two outputs differ."""
    asked = arguments()
    schedules = whole, one = schedules_of(asked)
    replay = [program("crsm"), "replay-mp" if asked.leader else "replay"]
    ours, theirs = [], []
    for _ in range(asked.runs):
        ours += [seconds_of(replay, schedules) for _ in range(OURS_A_TURN)]
        if asked.command:
            theirs.append(seconds_of(asked.command, schedules))
    _, transcript = run_once(replay, whole)
    sent = transcript.count(b" send ")
    events = whole.count(b"\n") - 1
    replicas = one.split()[1].decode()
    print(f"{events} events of {replicas} replicas, {sent} datagrams: {rate(schedules, ours):.0f} events a second")
    if not asked.command:
        return 0
    ratio = rate(schedules, ours) / rate(schedules, theirs)
    print(f"the other program: {rate(schedules, theirs):.0f} events a second, ratio {ratio:.1f}")
    if run_once(asked.command, whole)[1] != transcript:
        print("the two outputs differ", file=sys.stderr)
        return 1
    return 0


if __name__ == "__main__":
    sys.exit(main())
