"""Putting the keys of a dump (`crsm dump`) into a cluster."""

import asyncio
import re
import sys
from collections import deque
from collections.abc import Awaitable, Callable, Container, Iterable, Sequence
from dataclasses import dataclass, field

from .aio import AsyncClient
from .protocol import KEY_BYTES, VALUE_BYTES

# The first words of the lines of a dump that have no key.
OTHERS = {"cluster", "bodies", "epoch", "members", "replicas", "executed", "promised", "client"}

# What is done with a key and its value.
Step = Callable[[AsyncClient, bytes, bytes], Awaitable[None]]


class NotADump(ValueError):
    """The input has no line, or one that no dump has in its place."""


class CutDump(NotADump):
    """The last line of the input is not `keys N` with the number of the keys before it, so some of them are missing."""


def keys_of(lines: Iterable[bytes]) -> dict[bytes, bytes]:
    """Returns the keys and values of a dump's lines, in the order of the keys. All lines are read before it returns.

    Raises `NotADump`, which names the line and the cause, for a line that is none of a dump, for keys that do not rise,
    and where no line came: then the program that was to write them has failed. Raises `CutDump` where the last line is
    not `keys N`, has no line feed, or has another number than there are lines of keys.
    """
    keys: dict[bytes, bytes] = {}
    number, last, is_counted = 0, b"", False
    for number, line in enumerate(lines, 1):
        try:
            word, rest = _words_of(line)
            if is_counted:
                raise NotADump("it stands behind the number of the keys")
            if word == "keys":
                is_counted = _check_count(rest, len(keys))
            elif word == "key":
                key, value = _row_of(rest)
                _check_rises(last, key, keys)
                keys[key], last = value, key
        except NotADump as cause:
            raise type(cause)(f"line {number}: {cause}") from None
    if not number:
        raise NotADump("no line came: a dump has some, even of an empty store")
    if not is_counted:
        raise CutDump(f"line {number}: the last line does not give the number of the keys, so the dump was cut")
    return keys


def _words_of(line: bytes) -> tuple[str, list[str]]:
    """Returns the first word of a line that ends with a line feed, and the others."""
    if not line.endswith(b"\n"):
        raise CutDump("it has no end, so the dump was cut")
    word, *rest = line[:-1].decode("latin-1").split(" ")
    if word not in {"key", "keys", *OTHERS}:
        raise NotADump(f"it is none of a dump: {line[:60]!r}")
    return word, rest


def _row_of(words: Sequence[str]) -> tuple[bytes, bytes]:
    """Reads the words KEY and VALUE. A value of no bytes is `empty`."""
    if len(words) != 2:
        raise NotADump("a key and a value stand behind the word `key`")
    key = _bytes_of("key", words[0], KEY_BYTES)
    return key, b"" if words[1] == "empty" else _bytes_of("value", words[1], VALUE_BYTES)


def _bytes_of(name: str, text: str, most: int) -> bytes:
    """Reads the bytes of a key or of a value, 1 to `most`."""
    if re.fullmatch("(?:[0-9a-f]{2})+", text) is None:
        is_upper = re.fullmatch("(?:[0-9a-fA-F]{2})+", text) is not None
        raise NotADump(f"the {name} {'has letters in upper case' if is_upper else 'is not hexadecimal'}: {text[:60]}")
    if len(text) > 2 * most:
        raise NotADump(f"the {name} has {len(text) // 2} bytes, and {most} at most")
    return bytes.fromhex(text)


def _check_rises(last: bytes, key: bytes, keys: Container[bytes]) -> None:
    """Sees that a key is above the last one: lines that were joined or sorted anew are no dump."""
    if key in keys:
        raise NotADump(f"the key {key.hex()} is named twice")
    if key < last:
        raise NotADump(f"the key {key.hex()} stands behind {last.hex()}, and keys rise")


def _check_count(words: Sequence[str], count: int) -> bool:
    """Sees that the number of the keys is this one, and returns true."""
    if len(words) != 1 or re.fullmatch("0|[1-9][0-9]*", words[0], re.ASCII) is None:
        raise NotADump("a number stands behind the word `keys`")
    if words[0] != str(count):
        raise CutDump(f"it names {words[0]} keys, and {count} stand before it")
    return True


@dataclass
class Loaded:
    """How many keys a load put, how many had their value already, and which have another value."""

    put: int = 0
    there: int = 0
    differing: list[bytes] = field(default_factory=list)

    def __str__(self) -> str:
        return f"{self.put} keys put, {self.there} there already, {len(self.differing)} with another value"


def put_all(stores: Sequence[AsyncClient], keys: dict[bytes, bytes], *, replaces: bool) -> Loaded:
    """Puts each key that is missing, and with `replaces` each that has another value; then reads all and compares.

    All clients are at work in both passes, and stay open. A load that was broken off is repeated from the beginning:
    what it put is there already. Raises `CrsmError` if a command was not done.
    """
    loaded = Loaded()

    async def put(store: AsyncClient, key: bytes, value: bytes) -> None:
        swap = await store.cas(key, None, value)
        if not swap and swap.found == value:
            loaded.there += 1
            return
        if not swap and replaces:
            await store.put(key, value)
        loaded.put += bool(swap) or replaces

    async def compare(store: AsyncClient, key: bytes, value: bytes) -> None:
        if await store.get(key) != value:
            loaded.differing.append(key)

    async def both() -> None:
        await _for_each("put", stores, keys, put)
        await _for_each("compared", stores, keys, compare)

    asyncio.run(both())
    loaded.differing.sort()
    return loaded


async def _for_each(verb: str, stores: Sequence[AsyncClient], keys: dict[bytes, bytes], do: Step) -> None:
    """Does this for each key, by all clients at a time, each of which asks for one after another. After an error the
    others end what is under way."""
    left = deque(keys.items())
    count = 0

    async def one(store: AsyncClient) -> None:
        nonlocal count
        try:
            while left:
                await do(store, *left.popleft())
                count += 1
                _show(verb, count, len(keys))
        except BaseException:
            left.clear()
            raise

    for result in await asyncio.gather(*map(one, stores), return_exceptions=True):
        if result is not None:
            raise result


def _show(verb: str, count: int, total: int) -> None:
    """Draws how far it is, on a terminal."""
    if not sys.stderr.isatty() or (count % 64 and count != total):
        return
    filled = 40 * count // total
    bar = f"\r[{'#' * filled}{' ' * (40 - filled)}] {count:,} of {total:,} keys {verb}"
    print(bar, end="\n" if count == total else "", file=sys.stderr, flush=True)
