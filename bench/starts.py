"""Starts: how long a node that is alone takes to start on a long log, and its memory then.

    python3 bench/starts.py [--commands COUNT] [--bytes COUNT] [--runs COUNT]

The log has so many puts of values of so many bytes, six in a body, by 3,000 clients over 60,000 keys. A start ends when
the node says that it listens: elapsed time, the fastest of the runs, with the sheet thrown away and with it in a file.
"""

import argparse
import os
import random
import struct
import subprocess
import tempfile
import time

from nodes import FOR_EVER, free_addresses, text_of
from timing import program

COMMANDS, VALUE_BYTES, RUNS = 600_000, 100, 4
IN_A_BODY, CLIENTS, KEYS = 6, 3_000, 60_000


def u64(number):
    """Eight bytes."""
    return struct.pack(">Q", number)


def entry(body):
    """A body as the log has it, behind its open gate and its length."""
    return b"\x01" + struct.pack(">I", len(body)) + body


def logged(place, draws, size):
    """The records of a put at this place: it is logged, and it is committed."""
    stamp = u64(1_000 + place) + b"\x00"
    key, value = struct.pack(">I", draws.randrange(KEYS)), bytes([draws.randrange(256)]) * size
    put = b"\x02" + bytes([len(key)]) + key + struct.pack(">H", size) + value
    command = u64(1 + draws.randrange(CLIENTS)) + u64(1 + place) + put
    return b"\x02" + u64(0) + stamp + command, b"\x03" + stamp


def write_log(path, commands, size):
    """Writes the log: a boot and epoch 0, the bodies, and a closed gate."""
    draws = random.Random(1)
    with open(path, "wb") as file:
        file.write(entry(b"\x01\x00\x01" + b"\x09" + u64(0)))
        for first in range(0, commands, IN_A_BODY):
            places = range(first, min(first + IN_A_BODY, commands))
            prepares, commits = zip(*(logged(place, draws, size) for place in places))
            file.write(entry(b"".join(prepares + commits)))
        file.write(b"\x00")


def start(folder, sheet):
    """Starts a node in the folder: the seconds until it listens, its word, and its memory in kilobytes."""
    with open(os.path.join(folder, sheet), "wb") as out:
        began = time.monotonic()
        words = [program("crsm"), "node", "0", "1", str(FOR_EVER), text_of(free_addresses(1)[0])]
        with subprocess.Popen(words, cwd=folder, stdout=out, stderr=subprocess.PIPE, text=True) as node:
            word = node.stderr.readline().strip()
            seconds = time.monotonic() - began
            with open(f"/proc/{node.pid}/status", encoding="ascii") as status:
                memory = [int(line.split()[1]) for line in status if line.startswith("VmHWM")]
            node.kill()
    return seconds, word, max(memory, default=0)


def main():
    """Writes the log and prints what starts on it take."""
    parser = argparse.ArgumentParser(description=__doc__)
    parser.add_argument("--commands", type=int, default=COMMANDS)
    parser.add_argument("--bytes", type=int, default=VALUE_BYTES, help="of each value")
    parser.add_argument("--runs", type=int, default=RUNS)
    asked = parser.parse_args()
    with tempfile.TemporaryDirectory() as folder:
        path = os.path.join(folder, "crsm-0.log")
        write_log(path, asked.commands, asked.bytes)
        size = os.path.getsize(path)
        for name, sheet in (("thrown away", os.devnull), ("in a file", "sheet")):
            starts = [start(folder, sheet) for _ in range(asked.runs)]
            seconds, word, memory = min(starts)
            memory *= 1024
            each = (memory - size) / asked.commands
            print(f"sheet {name}: {seconds:.2f} s; {word}")
            print(f"  {memory / 1e6:.0f} MB of memory, {size / 1e6:.0f} of them the log: {each:.0f} bytes a command")


if __name__ == "__main__":
    main()
