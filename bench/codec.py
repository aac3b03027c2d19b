"""The codec: megabytes of a page of 1,000 entries that are written and read in a second."""

from timing import work

ENTRIES = 1_000
PAGES = 4_000


def main():
    """Prints a rate for each direction."""
    for word in ("write", "read"):
        seconds, count = work(word, ENTRIES, PAGES)
        print(f"{word}: {count / seconds / 1e6:.0f} MB/s, pages of {count // PAGES} bytes")


if __name__ == "__main__":
    main()
