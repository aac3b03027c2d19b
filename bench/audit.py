"""Audit: lines a second and bytes of memory a line of `audit`, beside `replay-node` of the same sheets.

    python3 bench/audit.py [--lines COUNT] [--runs COUNT]

One sheet in which each line is a command, one of ticks alone, and three sheets of commands that are alike. Each command is
run in a process of its own with its output thrown away: the fastest run counts, in processor time, and the most memory.
"""

import argparse
import os
import sys
import tempfile

from timing import RUNS, program

LINES = 1_000_000


def u64(number):
    """Eight bytes in hexadecimal."""
    return f"{number:016x}"


def request_of(k):
    """Line `k` of the sheet of a node that is alone, in which each line behind `open` is a command."""
    return f"in {10 * k} 77 04{u64(7)}{u64(k)}020161000162"


def tick_of(k):
    """The same of one in which nothing is asked for."""
    return f"tick {k}"


def write(file, line_of, lines, node=""):
    """Writes a sheet line by line, since what this process holds would count as memory of those that it starts."""
    file.write(f"{node}open\n".encode())
    for k in range(1, lines):
        file.write(f"{line_of(k)}\n".encode())


def run(words, file):
    """The seconds of processor of one run, and its bytes of memory."""
    file.seek(0)
    child = os.fork()
    if child == 0:
        os.dup2(file.fileno(), 0)
        os.dup2(os.open(os.devnull, os.O_WRONLY), 1)
        os.execv(words[0], words)
    _, status, usage = os.wait4(child, 0)
    if status != 0:
        sys.exit(f"{words} ends with {os.waitstatus_to_exitcode(status)}")
    return usage.ru_utime + usage.ru_stime, usage.ru_maxrss * 1024


def best(words, file, runs):
    """The least time of some runs, and the most memory."""
    took = [run(words, file) for _ in range(runs)]
    return min(seconds for seconds, _ in took), max(memory for _, memory in took)


def compare(title, line_of, lines, sheets, runs):
    """Replays a sheet of node 0 so many times, and audits as many of it."""
    crsm = program("crsm")
    with tempfile.TemporaryFile() as one, tempfile.TemporaryFile() as all_of_them:
        write(one, line_of, lines)
        for _ in range(sheets):
            write(all_of_them, line_of, lines, "node 0\n")
        replayed, memory = best([crsm, "replay-node", "0", "1"], one, runs)
        audited, kept = best([crsm, "audit", "1"], all_of_them, runs)
    print(f"{title}, {sheets} of {lines} lines:", end=" ")
    print(f"replay-node {lines / replayed:.0f} lines a second, {memory / lines:.0f} bytes a line;", end=" ")
    print(f"audit {sheets * lines / audited:.0f} lines a second, {kept / (sheets * lines):.0f} bytes a line, {sheets * replayed / audited:.2f} times as fast")


def main():
    """Prints a line for each of the three inputs."""
    parser = argparse.ArgumentParser(description=__doc__)
    parser.add_argument("--lines", type=int, default=LINES)
    parser.add_argument("--runs", type=int, default=RUNS)
    asked = parser.parse_args()
    compare("commands", request_of, asked.lines, 1, asked.runs)
    compare("ticks", tick_of, asked.lines, 1, asked.runs)
    compare("commands", request_of, asked.lines // 3, 3, asked.runs)
    return 0


if __name__ == "__main__":
    sys.exit(main())
