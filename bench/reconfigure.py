"""How long a membership change takes while commands are pending.

    python3 bench/reconfigure.py PROGRAM

starts five nodes, stops the process of one, asks each of them for 64 commands that put 512 bytes, lets the process go
on and asks for the other four as members. Prints how many entries the next epoch begins with, and how long it took
until each of its members answered.
"""

import os
import shutil
import socket
import struct
import subprocess
import sys
import tempfile
import time

HERE = os.path.dirname(os.path.abspath(__file__))
sys.path[:0] = [HERE, f"{HERE}/../clients/python"]

from crsm import Client, CrsmError  # noqa: E402
from nodes import Node, free_addresses, text_of  # noqa: E402

NODES, PENDING, VALUE = 5, 64, b"v" * 512


def await_answer(address, client: int) -> None:
    """Waits until a node answers."""
    while True:
        with Client([address], client=client, timeout=1.0) as one:
            try:
                one.get("probe")
                return
            except CrsmError:
                pass


def ask_for_all(addresses) -> None:
    """Sends the commands, each of a client of its own, and waits for no answer."""
    with socket.socket(socket.AF_INET, socket.SOCK_DGRAM) as out:
        for number in range(NODES * PENDING):
            key = b"key%05d" % number
            put = bytes([2, len(key)]) + key + struct.pack(">H", len(VALUE)) + VALUE
            out.sendto(struct.pack(">BQQ", 4, 10_000 + number, 1) + put, addresses[number % NODES])


def tail_of(program: str, node: Node) -> str:
    """With how many entries epoch 1 begins, as a node decided it."""
    with open(node.sheet(0), "rb") as sheet:
        words = [program, "replay-node", str(node.number), str(NODES)]
        text = subprocess.run(words, stdin=sheet, capture_output=True, check=False).stdout.decode()
    found = [line.split() for line in text.splitlines() if " decide " in line]
    return f"{int(found[0][5]) + int(found[0][6])}" if found else "none"


def main() -> int:
    """One run."""
    program = os.path.abspath(sys.argv[1])
    folder = tempfile.mkdtemp(prefix="crsm-reconfigure-")
    addresses = free_addresses(NODES)
    peers = ",".join(text_of(it) for it in addresses)
    nodes = [Node(program, f"{folder}/{at}", at, NODES, peers) for at in range(NODES)]
    try:
        for it in nodes:
            it.start()
        for at, address in enumerate(addresses):
            await_answer(address, at)
        nodes[-1].pause()
        ask_for_all(addresses)
        time.sleep(0.3)
        nodes[-1].go_on()
        began = time.monotonic()
        with Client(addresses) as control:
            control.request_members(range(NODES - 1), via=0)
        for at, address in enumerate(addresses[:-1]):
            await_answer(address, 100 + at)
        took = time.monotonic() - began
    finally:
        for it in nodes:
            it.kill()
    print(f"the next epoch begins with {tail_of(program, nodes[0])} entries; all members answered after {took:.2f} s")
    shutil.rmtree(folder)
    return 0


if __name__ == "__main__":
    sys.exit(main())
