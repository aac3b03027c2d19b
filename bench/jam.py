"""Whether clusters of any size answer again once a slow network that loses packets is whole: no node's room stays full.

    python3 bench/jam.py PROGRAM [--nodes N,N] [--short]

Each row starts nodes whose packets pass through `relay.c`, has 16 clients put 100 bytes each without end, one command
after another, and delays and loses packets for 25 s. Then the network is whole again, the clients go on, and each node
has to answer a put of one client more within 6 s. Prints a line for each row: the answers a second before and under it,
and the longest wait for that put. Ends with 1 where one took longer. `--short` runs one row of six nodes, for 10 s.
"""

import argparse
import os
import sys
import tempfile
import time
from typing import Dict, List, NamedTuple

from cluster import BUSY_PAUSE, RESEND, Crsm
from load import Broken
from network import Trial

SIZES = [3, 5, 6, 7, 10, 15]
SECONDS, SHORT_SECONDS = 25.0, 10.0
BEFORE = 1.0
ANSWERED_WITHIN = 6.0
# How long a node that is late is waited for, so that the line says whether it is late or jammed.
WAITED_FOR = 20.0
# The clients of the load have lower numbers.
FIRST_PROBER = 1_000


class Row(NamedTuple):
    """What the network does to each packet: milliseconds of delay, and how many of 10,000 it loses."""

    delay: int
    loss: int


ROWS = [Row(2_000, 300), Row(150, 200), Row(500, 1_000), Row(100, 100)]


class Prober:
    """A client that puts one value at a node, again and again until it is answered."""

    def __init__(self, trial: Trial, at: int):
        self._client = Crsm(trial.addresses[at], FIRST_PROBER + at)
        self._client.socket.setblocking(False)
        self._client.ask()
        self._due = time.monotonic() + RESEND

    def has_answer(self) -> bool:
        """Whether the answer came; the command is sent again where it is time for it."""
        try:
            answer = self._client.take()
        except OSError:
            answer = None
        now = time.monotonic()
        if answer is False:
            self._due = now + BUSY_PAUSE
        elif answer is None and self._due <= now:
            self._client.again()
            self._due = now + RESEND
        return answer is True


def waits(trial: Trial) -> List[float]:
    """The seconds until each node has answered a put that is asked now, or those that were waited."""
    began = time.monotonic()
    waiting = {at: Prober(trial, at) for at in range(trial.count)}
    found: Dict[int, float] = {}
    while waiting and time.monotonic() < began + WAITED_FOR:
        for at in [at for at, it in waiting.items() if it.has_answer()]:
            found[at] = time.monotonic() - began
            del waiting[at]
        time.sleep(0.0005)
    return [found.get(at, WAITED_FOR) for at in range(trial.count)]


def tried(trial: Trial, row: Row, seconds: float) -> List[float]:
    """Runs a row, and answers the waits behind it; the first two are answers a second, before and under it."""
    before = trial.rate(BEFORE)
    trial.relay.tell(f"loss {row.loss}")
    trial.relay.tell(f"delay {row.delay}")
    under = trial.rate(seconds)
    trial.relay.tell("mend")
    return [before, under, *waits(trial)]


def one_row(program: str, count: int, row: Row, seconds: float) -> bool:
    """Prints the line of a row at nodes of its own; whether each answered in time."""
    name = f"{count} nodes, {row.delay:,} ms, {row.loss / 100:.0f} %"
    with tempfile.TemporaryDirectory(prefix="crsm-jam-") as folder:
        trial = Trial(program, folder, count, 1.0)
        try:
            trial.start()
            before, under, *waited = tried(trial, row, seconds)
        except Broken as why:
            print(f"{name}: LACKS a start: {why}", flush=True)
            return False
        finally:
            trial.stop()
    late = [at for at, it in enumerate(waited) if it > ANSWERED_WITHIN]
    more = f"; LACKS an answer of {late} within {ANSWERED_WITHIN:.0f} s" if late else ""
    print(f"{name}: {before:,.0f}/s, then {under:,.0f}/s; longest wait {max(waited):.1f} s{more}", flush=True)
    return not late


def main() -> int:
    """All rows."""
    reader = argparse.ArgumentParser(description=__doc__, formatter_class=argparse.RawDescriptionHelpFormatter)
    reader.add_argument("program", type=os.path.abspath)
    reader.add_argument("--nodes", type=lambda text: list(map(int, text.split(","))), default=SIZES)
    reader.add_argument("--short", action="store_true")
    words = reader.parse_args()
    if words.short:
        failed = not one_row(words.program, 6, ROWS[0], SHORT_SECONDS)
    else:
        failed = sum(not one_row(words.program, count, row, SECONDS) for count in words.nodes for row in ROWS)
    print("jam: ok" if not failed else f"jam: {failed:d} rows lack something")
    return 1 if failed else 0


if __name__ == "__main__":
    sys.exit(main())
