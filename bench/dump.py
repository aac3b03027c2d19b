"""The dump of a node's log beside what the node answers.

    python3 bench/dump.py PROGRAM [--commands C] [--seed S]

starts three nodes, and a client does C commands at them that are drawn from the seed: puts, deletes and
compare-and-sets. While the nodes run, each log is dumped; every key of a dump and every key that is missing in it is
then asked for by `get`. The nodes are killed with kill -9, the end of each log is torn, as a write leaves it that was cut
off, and the logs are dumped again. Ends with 0 where all agree, with 1 and the reason
where not.
"""

import argparse
import os
import random
import subprocess
import sys
import tempfile
import time
from typing import Dict, List

from nodes import Node, free_addresses, text_of

NODES = 3
KEYS = [f"{key:02x}" for key in range(0x61, 0x71)]
CLIENT, ASKER = 7, 8
WITHIN = 30.0


class Wrong(Exception):
    """What is said of a log that is not so."""


class Asking:
    """Commands of one client at one node, each asked until it is answered."""

    def __init__(self, program: str, to: str, client: int):
        self.program, self.to, self.client, self.number = program, to, client, 0

    def ask(self, operation: List[str]) -> str:
        """The outcome of the next command."""
        self.number += 1
        words = [self.program, "client", self.to, "5000", str(self.client), str(self.number), *operation]
        until = time.monotonic() + WITHIN
        while time.monotonic() < until:
            done = subprocess.run(words, stdout=subprocess.PIPE, stderr=subprocess.DEVNULL, text=True, check=False)
            if done.stdout.startswith("ok "):
                return done.stdout.strip()[3:]
        raise Wrong(f"no answer to {' '.join(operation)}")


def dumped(program: str, node: Node, part: List[str]) -> List[str]:
    """The lines of the dump of a node's log."""
    with open(node.log, "rb") as log:
        words = [program, "dump", str(node.number), str(NODES), *part]
        done = subprocess.run(words, stdin=log, stdout=subprocess.PIPE, stderr=subprocess.PIPE, text=True, check=False)
    if done.returncode != 0:
        raise Wrong(f"node {node.number}: status {done.returncode}, {done.stderr.strip()}")
    return done.stdout.splitlines()


def keys_of(lines: List[str]) -> Dict[str, str]:
    """The keys of a dump with their values, which stand in ascending order and are counted by the last line."""
    rows = [line.split()[1:] for line in lines if line.startswith("key ")]
    names = [key for key, _ in rows]
    if names != sorted(set(names)):
        raise Wrong(f"the keys do not rise: {names}")
    if lines[-1] != f"keys {len(rows)}":
        raise Wrong(f"the last line is {lines[-1]}, and there are {len(rows)} keys")
    return dict(rows)


def drawn(chance: random.Random) -> List[str]:
    """An operation."""
    key, value = chance.choice(KEYS), chance.randbytes(3).hex()
    return chance.choice(
        [["put", key, value], ["put", key, "empty"], ["del", key], ["cas", key, "none", value], ["cas", key, value, "none"]]
    )


def executed(lines: List[str]) -> int:
    """How many commands a dump has."""
    return next(int(line.split()[1]) for line in lines if line.startswith("executed "))


def settled(program: str, nodes: List[Node], count: int) -> None:
    """Waits until each log has so many executed commands."""
    until = time.monotonic() + WITHIN
    while any(executed(dumped(program, node, ["state"])) < count for node in nodes):
        if time.monotonic() > until:
            raise Wrong(f"the logs do not come to {count} executed commands")
        time.sleep(0.1)


def compare(found: Dict[str, str], answers: Dict[str, str], where: str) -> None:
    """Says where a dump and the answers differ."""
    for key in KEYS:
        told = f"found {found[key]}" if key in found else "missing"
        if told != answers[key]:
            raise Wrong(f"{where}: the key {key} is {told}, and the answer is {answers[key]}")


def try_all(program: str, folder: str, commands: int, chance: random.Random) -> None:
    """Does it all in a folder."""
    peers = [text_of(address) for address in free_addresses(NODES)]
    nodes = [Node(program, f"{folder}/{k}", k, NODES, ",".join(peers)) for k in range(NODES)]
    try:
        for node in nodes:
            node.start()
        writer = Asking(program, peers[0], CLIENT)
        last = ""
        for _ in range(commands):
            last = writer.ask(drawn(chance))
        asker = Asking(program, peers[1], ASKER)
        answers = {key: asker.ask(["get", key]) for key in KEYS}
        settled(program, nodes, commands + len(KEYS))
        for node in nodes:
            lines = dumped(program, node, [])
            compare(keys_of(lines), answers, f"node {node.number}, running")
            if f"client {CLIENT} {writer.number} {last}" not in lines:
                raise Wrong(f"node {node.number}: the last answer to client {CLIENT} is {last}")
    finally:
        for node in nodes:
            node.kill()
    for node in nodes:
        before = dumped(program, node, [])
        node.tear(chance)
        if dumped(program, node, []) != before:
            raise Wrong(f"node {node.number}: what stands behind the closed gate counts")
        compare(keys_of(before), answers, f"node {node.number}, killed")


def main() -> int:
    """Reads the words, and says how it ended."""
    words = argparse.ArgumentParser(description="The dump of a node's log beside what the node answers.")
    words.add_argument("program")
    words.add_argument("--commands", type=int, default=60)
    words.add_argument("--seed", type=int, default=1)
    given = words.parse_args()
    with tempfile.TemporaryDirectory() as folder:
        try:
            try_all(os.path.abspath(given.program), folder, given.commands, random.Random(given.seed))
        except Wrong as wrong:
            print(f"dump: {wrong}")
            return 1
    print(f"dump: {NODES} logs of {given.commands} commands say what the nodes answer")
    return 0


if __name__ == "__main__":
    sys.exit(main())
