"""The collection: the time of 15 reports of 4,096 entries, as a ratio to that of 15 of a quarter."""

import sys

from timing import work

ENTRIES = 4_096
FEWER = 1_024
ROUNDS = 8
# Four times the entries, their logarithm and caches make some 5; a busy machine adds to it, and a square would be 16.
WANTED = 8


def main():
    """Prints the ratio, and ends with status 1 where it is too great."""
    fewer, _ = work("collect", FEWER, 4 * ROUNDS)
    many, count = work("collect", ENTRIES, ROUNDS)
    ratio = 4 * many / fewer
    for size, seconds, rounds in ((FEWER, fewer, 4 * ROUNDS), (ENTRIES, many, ROUNDS)):
        print(f"15 reports of {size} entries: {1e3 * seconds / rounds:.1f} ms")
    print(f"a tail of {count // ROUNDS} entries")
    print(f"time, {ENTRIES} to {FEWER} entries: {ratio:.2f} (below {WANTED} is wanted; a square would be 16)")
    return 0 if ratio < WANTED else 1


if __name__ == "__main__":
    sys.exit(main())
