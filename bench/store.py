"""The store: the time of a command over many keys and clients, as a ratio to that over few.

The bound holds for visits in turn. At scattered visits each command waits for memory, which no store can change.
"""

import sys

from timing import work

FEW = 100
MANY = 60_000
COMMANDS = 400_000
RUNS = 9
WANTED = 3


def nanoseconds(word, size):
    """The processor time of one command over so many keys and clients."""
    seconds, _ = work(word, size, COMMANDS, runs=RUNS)
    return seconds / COMMANDS * 1e9


def ratio(name, word):
    """Prints both times for an order of visits, and answers how much longer a command takes over many."""
    few, many = nanoseconds(word, FEW), nanoseconds(word, MANY)
    print(f"{name}: {few:.0f} ns a command over {FEW} keys and clients, {many:.0f} over {MANY}: {many / few:.2f} times as long")
    return many / few


def main():
    """Ends with status 1 where a command that visits keys and clients in turn takes too long."""
    in_turn = ratio("in turn", "store_in_order")
    ratio("scattered", "store")
    print(f"below {WANTED} is wanted in turn")
    return 0 if in_turn < WANTED else 1


if __name__ == "__main__":
    sys.exit(main())
