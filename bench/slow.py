"""Commands a second of crsm beside etcd on disks whose syncs are slow.

    python3 bench/slow.py PROGRAM.. [--delays 0,2000,5000] [--members 3,5] [--clients 1,16,64,256,1024,4096]
                          [--rounds R] [--seconds S] [--stores crsm,etcd]

starts nodes of each PROGRAM, and then members of etcd, on this machine, and makes each `fsync` and `fdatasync` of theirs
slower by so many microseconds, by `strace`, which traces nothing else and both alike (a delay of 0 is `strace` alone, and
`off` is nothing at all). So many clients put 100 bytes each, one command after another, at all members in turn. Prints
commands a second, and the times within which 50 and 99 of a hundred were answered, and at the end the medians of the
rounds and all rounds; each line says what share of the processors the host of this machine took away. A node has 64
commands of its own under way at most, so 64 a member in the time of one client's command is the most that there can be.
etcd is left out with a word where it is not installed; without `strace`, or where it may not trace, it says so and ends
with 3. What it starts, it stops.
"""

import argparse
import os
import shutil
import signal
import statistics
import subprocess
import sys
import tempfile
import time
from functools import partial
from typing import Dict, List, NamedTuple, Tuple

from cluster import WARM_UP, Crsm, Etcd, Load, Store, await_store, load_members, part_of, start_crsm, start_etcd
from wan import names, numbers, processors, stolen_since

NO_TRACE = 3
SYNCS = "fsync,fdatasync"
TRACE = ["strace", "--seccomp-bpf", "-f", "-qq", "-o", os.devnull, "-e", f"trace={SYNCS}"]
OFF = "off"


def slowed(delay: str) -> List[str]:
    """What stands before a program whose syncs are to be slower by so many microseconds."""
    if delay == OFF:
        return []
    return TRACE if delay == "0" else [*TRACE, "-e", f"inject={SYNCS}:delay_exit={delay}"]


def why_not() -> str:
    """Why syncs cannot be made slower here, or nothing."""
    if shutil.which("strace") is None:
        return "strace is not installed"
    done = subprocess.run([*slowed("1"), "true"], stdout=subprocess.PIPE, stderr=subprocess.STDOUT, text=True, check=False)
    return f"strace traces nothing: {done.stdout.strip()}" if done.returncode else ""


class SlowStore(Store):
    """Servers whose syncs are slower by so many microseconds."""

    def __init__(self, delay: str, folder: str):
        super().__init__(folder)
        self.delay = delay

    def start(self, name: str, words: List[str]) -> None:
        """Starts a server."""
        super().start(name, [*slowed(self.delay), *words])

    def stop(self) -> None:
        """Ends all servers: each by itself, since what traces it leaves it running."""
        for it in self.processes:
            with open(f"/proc/{it.pid}/task/{it.pid}/children", encoding="ascii") as file:
                for pid in file.read().split():
                    os.kill(int(pid), signal.SIGKILL)
        super().stop()


class Figure(NamedTuple):
    """What a load gave: commands a second, the seconds within which 50 and 99 of a hundred were answered, refusals for each
    answer, what the member with the fewest answers gave of what the one with the most did, and what the host took away."""

    rate: float
    middle: float
    slow: float
    refused: float
    evenness: float
    stolen: float


def figure_of(found: Load, seconds: float, stolen: float) -> Figure:
    """The figure of what clients saw in so many seconds."""
    took = sorted(found.took)
    refused = found.refused / max(1, len(took))
    evenness = min(found.answered) / max(1, *found.answered)
    return Figure(len(took) / seconds, part_of(took, 50), part_of(took, 99), refused, evenness, stolen)


def text_of(it: Figure) -> str:
    """A figure in words."""
    return f"{it.rate:,.0f}/s, {it.middle * 1e3:,.1f} and {it.slow * 1e3:,.1f} ms"


# A store's name, the members and the delay of syncs; and with these the clients.
Case = Tuple[str, int, str]
Found = Dict[Tuple[str, int, str, int], List[Figure]]


def measure(case: Case, program: str, words, found: Found) -> None:
    """All numbers of clients at a store."""
    name, members, delay = case
    folder = tempfile.mkdtemp(prefix="crsm-slow-")
    kind, start = (Crsm, start_crsm) if program else (Etcd, start_etcd)
    store, addresses = start(program, folder, members, partial(SlowStore, delay))
    try:
        time.sleep(2.0)
        await_store(kind, addresses)
        for count in words.clients:
            before = processors()
            load = load_members(kind, addresses, count, words.seconds, WARM_UP + count / 1000)
            figure = figure_of(load, words.seconds, stolen_since(before))
            found.setdefault((*case, count), []).append(figure)
            print(
                f"{members} members, syncs slower by {delay} us, {count} clients, {name}: {text_of(figure)}; refused "
                f"{figure.refused:.2f} an answer, least of most {figure.evenness:.2f}; stolen {figure.stolen:.0%}, "
                f"load {os.getloadavg()[0]:.1f}",
                flush=True,
            )
    finally:
        store.stop()
        shutil.rmtree(folder, ignore_errors=True)


def print_table(words, stores: Dict[str, str], found: Found) -> None:
    """The medians, and all rounds."""
    print("\n| members | syncs slower by, us | clients | store | commands/s | 50 %, ms | 99 %, ms | refused | least of most |")
    print("|---|---|---|---|---|---|---|---|---|")
    rows = [(members, delay, count) for members in words.members for delay in words.delays for count in words.clients]
    for members, delay, count in rows:
        for name in stores:
            if (name, members, delay, count) in found:
                it = Figure(*map(statistics.median, zip(*found[name, members, delay, count])))
                evenness = f"{it.evenness:.2f}" if count >= members else ""
                print(
                    f"| {members} | {delay} | {count} | {name} | {it.rate:,.0f} | {it.middle * 1e3:,.1f} "
                    f"| {it.slow * 1e3:,.1f} | {it.refused:.2f} | {evenness} |"
                )
    print()
    for members, delay, count in rows:
        for name in stores:
            rounds = "; ".join(f"{text_of(it)}, stolen {it.stolen:.0%}" for it in found.get((name, members, delay, count), []))
            print(f"{members} members, syncs slower by {delay} us, {count} clients, {name}: {rounds}")


def stores_of(words) -> Dict[str, str]:
    """The stores by their names, with the program of each of crsm."""
    stores: Dict[str, str] = {}
    if "crsm" in words.stores:
        short = [os.path.basename(it) for it in words.programs]
        stores.update(zip(short if len(set(short)) == len(short) else words.programs, words.programs))
    if "etcd" in words.stores and shutil.which("etcd") is None:
        print("etcd is not installed, and is left out", file=sys.stderr)
    elif "etcd" in words.stores:
        stores["etcd"] = ""
    return stores


def main() -> int:
    """All stores in each round, then the table."""
    reader = argparse.ArgumentParser(description=__doc__, formatter_class=argparse.RawDescriptionHelpFormatter)
    reader.add_argument("programs", nargs="+", type=os.path.abspath, metavar="PROGRAM")
    reader.add_argument("--delays", type=names, default=["0", "2000", "5000"], help="microseconds, or off")
    reader.add_argument("--members", type=numbers, default=[3, 5])
    reader.add_argument("--clients", type=numbers, default=[1, 16, 64, 256, 1024, 4096])
    reader.add_argument("--stores", type=names, default=["crsm", "etcd"])
    reader.add_argument("--rounds", type=int, default=3)
    reader.add_argument("--seconds", type=float, default=4.0)
    words = reader.parse_args()
    signal.signal(signal.SIGTERM, lambda *_: sys.exit(1))
    why = why_not() if words.delays != [OFF] else ""
    if why:
        print(f"slow: syncs cannot be made slower here: {why}")
        return NO_TRACE
    stores, found = stores_of(words), {}
    for _ in range(words.rounds):
        for members in words.members:
            for delay in words.delays:
                for name, program in stores.items():
                    try:
                        measure((name, members, delay), program, words, found)
                    except OSError as why_nothing:
                        print(f"{members} members, {name}: came to nothing: {why_nothing}", flush=True)
    print_table(words, stores, found)
    return 0


if __name__ == "__main__":
    sys.exit(main())
