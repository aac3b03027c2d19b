"""The ledger: entries a second that are recovered from a log of 200,000 commands."""

from timing import work

COMMANDS = 200_000
TIMES = 3


def main():
    """Prints the rate, and that of a log of a tenth of the commands."""
    for size, rounds in ((COMMANDS // 10, 10 * TIMES), (COMMANDS, TIMES)):
        seconds, count = work("ledger", size, rounds, runs=3)
        print(f"recover of {size} commands: {count / seconds:.0f} entries a second")


if __name__ == "__main__":
    main()
