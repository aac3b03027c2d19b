"""Processor time of programs: the least of a few runs, since other work on the machine only adds to it."""

import os
import resource
import subprocess
import sys
import tempfile

TOP = os.path.dirname(os.path.dirname(os.path.abspath(__file__)))
RUNS = 5


def program(crate):
    """The path of a program of this repository, which `rt run` in its crate's folder builds."""
    path = os.path.join(TOP, "crates", crate, "out", crate)
    if not os.access(path, os.X_OK):
        sys.exit(f"{path} is missing: build it by `rt run` in crates/{crate}")
    return path


def children_seconds():
    """The processor time of all programs that were run and have ended, in seconds."""
    usage = resource.getrusage(resource.RUSAGE_CHILDREN)
    return usage.ru_utime + usage.ru_stime


def run_once(command, given=b"", to=subprocess.PIPE):
    """Runs a program on these bytes, as a file: its processor time in seconds, and its output where that is kept."""
    with tempfile.TemporaryFile() as file:
        file.write(given)
        file.seek(0)
        before = children_seconds()
        done = subprocess.run(command, stdin=file, stdout=to, check=False)
        seconds = children_seconds() - before
    if done.returncode != 0:
        sys.exit(f"{command[0]} ended with status {done.returncode}")
    return seconds, done.stdout


def fastest(command, given=b"", runs=RUNS, to=subprocess.PIPE):
    """The least time of some runs in seconds, and the output where it is kept."""
    results = [run_once(command, given, to) for _ in range(runs)]
    return min(seconds for seconds, _ in results), results[0][1]


def work(word, size, rounds, runs=RUNS):
    """What `rounds` rounds of a kind of work on a value of this size take beyond none of them.

    Answers the time in seconds and the count that the program prints.
    """
    bench = program("crsm_test_bench")
    whole, output = fastest([bench, word, str(size), str(rounds)], runs=runs)
    start, _ = fastest([bench, word, str(size), "0"], runs=runs)
    return max(whole - start, 1e-9), int(output)
