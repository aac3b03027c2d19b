"""What nodes leave in their sockets' buffers, and what they take of a processor: idle, under load, and two of three.

    python3 bench/buffers.py PROGRAM [--clients C] [--seconds S]

starts three nodes and looks at them for S seconds each while nobody asks them, while C clients do, and, one having been
killed and the others having gone on without it, again without clients and with them. Prints for each the processor
time of a node, the most bytes that waited in a socket's buffer and how many packets found no room there.
"""

import argparse
import os
import shutil
import sys
import tempfile
import threading
import time
from typing import Dict, List, NamedTuple, Tuple

from cluster import TICKS, Address, Crsm, await_store, load, start_crsm

LOOK = 0.02
SETTLE = 8.0


class Seen(NamedTuple):
    """The shares of a processor, the most bytes in a buffer, the packets without room, and the commands a second."""

    shares: List[float]
    waiting: int
    lost: int
    rate: float


def sockets(addresses: List[Address]) -> Dict[int, Tuple[int, int]]:
    """For each port the bytes that wait in its buffer, and how many packets found no room there."""
    ports = {port for _, port in addresses}
    found = {}
    with open("/proc/net/udp", encoding="ascii") as file:
        for line in file.readlines()[1:]:
            fields = line.split()
            port = int(fields[1].split(":")[1], 16)
            if port in ports:
                found[port] = (int(fields[4].split(":")[1], 16), int(fields[-1]))
    return found


def spent(process) -> float:
    """The processor seconds of a process so far."""
    with open(f"/proc/{process.pid}/stat", encoding="ascii") as file:
        fields = file.read().rpartition(")")[2].split()
    return (int(fields[11]) + int(fields[12])) / TICKS


def watch(processes, addresses: List[Address], clients: int, seconds: float) -> Seen:
    """Looks at nodes for some seconds, while clients ask them."""
    took: List[float] = []
    asking = threading.Thread(target=lambda: took.extend(load(Crsm, addresses, clients, seconds)))
    before = [spent(it) for it in processes]
    lost = {port: it[1] for port, it in sockets(addresses).items()}
    began, most = time.monotonic(), 0
    if clients:
        asking.start()
    while time.monotonic() < began + seconds or asking.is_alive():
        most = max([most] + [waiting for waiting, _ in sockets(addresses).values()])
        time.sleep(LOOK)
    elapsed = time.monotonic() - began
    shares = [(spent(it) - was) / elapsed for it, was in zip(processes, before)]
    more = sum(it[1] - lost.get(port, 0) for port, it in sockets(addresses).items())
    return Seen(shares, most, more, len(took) / seconds)


def main() -> int:
    """All four."""
    reader = argparse.ArgumentParser(description=__doc__, formatter_class=argparse.RawDescriptionHelpFormatter)
    reader.add_argument("program", type=os.path.abspath)
    reader.add_argument("--clients", type=int, default=16)
    reader.add_argument("--seconds", type=float, default=5.0)
    words = reader.parse_args()
    folder = tempfile.mkdtemp(prefix="crsm-buffers-")
    store, addresses = start_crsm(words.program, folder)
    seen = {}
    try:
        time.sleep(1.0)
        await_store(Crsm, addresses)
        for name, clients in (("three, idle", 0), ("three, asked", words.clients)):
            seen[name] = watch(store.processes, addresses, clients, words.seconds)
        store.processes[2].kill()
        time.sleep(SETTLE)
        await_store(Crsm, addresses[:2])
        for name, clients in (("two of three, idle", 0), ("two of three, asked", words.clients)):
            seen[name] = watch(store.processes[:2], addresses[:2], clients, words.seconds)
    finally:
        store.stop()
        shutil.rmtree(folder, ignore_errors=True)
    print("| nodes | commands/s | processor of each | most bytes in a buffer | packets without room |")
    print("|---|---|---|---|---|")
    for name, it in seen.items():
        shares = ", ".join(f"{share * 100:.1f} %" for share in it.shares)
        print(f"| {name} | {it.rate:,.0f} | {shares} | {it.waiting:,} | {it.lost:,} |")
    return 0


if __name__ == "__main__":
    sys.exit(main())
