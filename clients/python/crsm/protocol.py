"""The bytes of requests and replies, and the operations of the store."""

import socket
import struct
from collections.abc import Iterable, Sequence
from typing import NamedTuple, TypeAlias

from .arguments import LAST_NUMBER, listed, whole
from .errors import REFUSALS, CrsmError, NoRoom, Stale, Unsafe

Bytes: TypeAlias = bytes | bytearray | memoryview | str
Address: TypeAlias = tuple[str, int]

KEY_BYTES = 64
VALUE_BYTES = 512
DATAGRAM_BYTES = 8192
REPLICAS = 15

_REQUEST, _REPLY, _OPERATE, _MARK = 4, 5, 6, 16
_GET, _PUT, _DELETE, _CAS = 1, 2, 3, 4
_FOUND, _MISSING, _DONE, _DIFFERS, _STALE, _NO_ROOM = 1, 2, 3, 4, 5, 6


class Cas(NamedTuple):
    """Whether a compare and set was done, and the value that was found where it was not. True where it was done."""

    done: bool
    found: bytes | None

    def __bool__(self) -> bool:
        return self.done


class Answer(NamedTuple):
    """An answer of the store: its kind, and the value or the number of a command that it has."""

    kind: int
    value: bytes | None = None
    number: int = 0

    @property
    def is_done(self) -> bool:
        """Whether the store has changed the key."""
        return self.kind == _DONE


class Operation(NamedTuple):
    """What a command does: its bytes, and the kinds of answers that it has beside `stale` and `no room`."""

    data: bytes
    kinds: tuple[int, ...]

    def check(self, answer: Answer) -> Answer:
        """Returns the answer. Raises `Stale` or `NoRoom` where it says so, and `CrsmError` where it is of another kind
        than the operation's own."""
        if answer.kind == _STALE:
            raise Stale(answer.number)
        if answer.kind == _NO_ROOM:
            raise NoRoom("the store is full")
        if answer.kind not in self.kinds:
            raise CrsmError("the store has done another command of this client and number")
        return answer


def get_of(key: Bytes) -> Operation:
    """Makes the operation that reads the key."""
    return Operation(bytes([_GET]) + _key(key), (_FOUND, _MISSING))


def put_of(key: Bytes, value: Bytes) -> Operation:
    """Makes the operation that sets the key."""
    return Operation(bytes([_PUT]) + _key(key) + _value(value), (_DONE,))


def delete_of(key: Bytes) -> Operation:
    """Makes the operation that removes the key."""
    return Operation(bytes([_DELETE]) + _key(key), (_DONE, _MISSING))


def cas_of(key: Bytes, expected: Bytes | None, new: Bytes | None) -> Operation:
    """Makes the operation that compares the key's value and sets it."""
    return Operation(bytes([_CAS]) + _key(key) + _optional(expected) + _optional(new), (_DONE, _DIFFERS))


def bytes_of(text: Bytes) -> bytes:
    """Returns the bytes of a key or a value. Raises `TypeError` for what is neither bytes nor text."""
    if isinstance(text, str):
        return text.encode()
    if isinstance(text, (bytes, bytearray, memoryview)):
        return bytes(text)
    raise TypeError(f"a key or a value is bytes or text, not {type(text).__name__}")


def _key(key: Bytes) -> bytes:
    data = bytes_of(key)
    if not 1 <= len(data) <= KEY_BYTES:
        raise ValueError(f"a key has 1 to {KEY_BYTES} bytes, this one {len(data)}")
    return bytes([len(data)]) + data


def _value(value: Bytes) -> bytes:
    data = bytes_of(value)
    if len(data) > VALUE_BYTES:
        raise ValueError(f"a value has at most {VALUE_BYTES} bytes, this one {len(data)}")
    return struct.pack(">H", len(data)) + data


def _optional(value: Bytes | None) -> bytes:
    return b"\0" if value is None else b"\1" + _value(value)


def mark_of(cluster: int) -> bytes:
    """Returns the bytes before each datagram of a cluster. Raises `ValueError` for a number of more than 64 bits."""
    return struct.pack(">BQ", _MARK, cluster) if whole("cluster", cluster, LAST_NUMBER) else b""


def request_of(client: int, number: int, operation: Operation) -> bytes:
    """Returns the bytes of a request."""
    return struct.pack(">BQQ", _REQUEST, client, number) + operation.data


def chosen_of(members: Iterable[int]) -> list[int]:
    """Returns the numbers of members, each once and rising. Raises `TypeError` or `ValueError` where one is none."""
    chosen = sorted({whole("members", number, REPLICAS - 1) for number in listed("members", members)})
    if not chosen:
        raise ValueError("members: one number at least")
    return chosen


def members_of(members: Iterable[int], nodes: int, via: int | None, sure: bool) -> tuple[int, bytes]:
    """Returns the node to ask for these members and the bytes of the request.

    That is node `via`, by default the first of the members that is one of the client's nodes, whose count is `nodes`.
    Raises `ValueError` for numbers that are none, and `Unsafe` for members that are no majority of the nodes, unless
    the caller is `sure`.
    """
    chosen = chosen_of(members)
    here = [number for number in chosen if number < nodes]
    if not sure and 2 * len(here) <= nodes:
        raise Unsafe(f"{chosen} has no majority of {nodes} nodes; say sure=True if that is meant")
    to = (here[0] if here else 0) if via is None else whole("via", via, nodes - 1)
    return to, bytes([_OPERATE, len(chosen)]) + bytes(chosen)


def addresses_of(nodes: Sequence[str | Address]) -> list[Address]:
    """Returns the addresses of a cluster's nodes. Raises `TypeError` or `ValueError` where one is none, or two are
    alike, and `OSError` where a name has no address."""
    addresses = [_address(node) for node in listed("nodes", nodes)]
    if not 1 <= len(addresses) <= REPLICAS or len(set(addresses)) != len(addresses):
        raise ValueError(f"nodes: 1 to {REPLICAS} addresses, no two alike")
    return addresses


def _address(node: object) -> Address:
    if isinstance(node, str):
        host, colon, digits = node.rpartition(":")
        if not (colon and digits.isascii() and digits.isdecimal()):
            raise ValueError(f"nodes: no address HOST:PORT: {node}")
        node = (host, int(digits))
    if not (isinstance(node, (tuple, list)) and len(node) == 2 and isinstance(node[0], str)):
        raise TypeError(f"nodes: an address is 'HOST:PORT' or (host, port), not {node!r}")
    host, port = node[0], whole("nodes: a port", node[1], 65535)
    if ":" in host:
        raise ValueError(f"nodes: addresses are of IPv4, not {host}")
    try:
        address = socket.gethostbyname(host)
    except ValueError:
        raise ValueError(f"nodes: no name of a host: {host!r}") from None
    # Datagrams to the address that stands for all of a machine are answered from another one.
    if port == 0 or address == "0.0.0.0":
        raise ValueError(f"nodes: no node listens at {host}:{port}")
    return address, port


class _Unreadable(Exception):
    """Bytes that are no reply."""


class _Reader:
    """Takes fields off the beginning of bytes."""

    def __init__(self, data: bytes):
        self._data = data
        self._at = 0

    def take(self, size: int) -> bytes:
        """Takes the next `size` bytes."""
        if len(self._data) - self._at < size:
            raise _Unreadable
        self._at += size
        return self._data[self._at - size : self._at]

    def number(self, size: int) -> int:
        """Takes a number of `size` bytes."""
        return int.from_bytes(self.take(size), "big")

    def value(self) -> bytes:
        """Takes a value."""
        size = self.number(2)
        if size > VALUE_BYTES:
            raise _Unreadable
        return self.take(size)

    def optional(self) -> bytes | None:
        """Takes a value or the sign of none."""
        there = self.number(1)
        if there > 1:
            raise _Unreadable
        return self.value() if there else None

    def answer(self) -> Answer:
        """Takes an answer of the store."""
        kind = self.number(1)
        if kind == _FOUND:
            return Answer(kind, self.value())
        if kind == _DIFFERS:
            return Answer(kind, self.optional())
        if kind == _STALE:
            return Answer(kind, None, self.number(8))
        if kind in (_MISSING, _DONE, _NO_ROOM):
            return Answer(kind)
        raise _Unreadable

    def end(self) -> None:
        """Sees that nothing is left."""
        if self._at != len(self._data):
            raise _Unreadable


class Reply(NamedTuple):
    """A reply: the client and the number of the command, and its answer, or the number of a refusal, 1 to 6."""

    client: int
    number: int
    outcome: Answer | int


def reply_of(data: bytes) -> Reply | None:
    """Reads a reply, or returns None for bytes that are none."""
    reader = _Reader(data)
    try:
        if reader.number(1) != _REPLY:
            return None
        client, number, code = reader.number(8), reader.number(8), reader.number(1)
        if code and code not in REFUSALS:
            return None
        outcome = code if code else reader.answer()
        reader.end()
    except _Unreadable:
        return None
    return Reply(client, number, outcome)
