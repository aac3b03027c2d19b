"""Locks, as the value of a key has them, and what a client asks to take and to give one, without a socket.

`granted` and `given` are generators: they yield operations, and are sent the answers to them.
"""

import random
import struct
from collections.abc import Generator
from dataclasses import dataclass
from typing import NamedTuple, Self

from .arguments import LAST_NUMBER, seconds, whole
from .errors import CrsmError, LockHeld, LockLost, NotALock
from .protocol import Answer, Bytes, Operation, bytes_of, cas_of, get_of

# The pauses between two looks at a lock that another holds: each is twice the one before, up to the last.
FIRST_PAUSE, LAST_PAUSE = 0.05, 1.0

_FREE, _HELD = 0, 1
_VALUE = struct.Struct(">BQQ")


class LockState(NamedTuple):
    """A lock as its key has it: the fence of the last grant, and who holds it by that grant, if anyone does."""

    fence: int
    owner: int | None

    @classmethod
    def of(cls, value: bytes | None) -> Self:
        """Reads a lock. A key without a value is a free lock that was never granted. Raises `NotALock`."""
        if value is None:
            return cls(0, None)
        if len(value) != _VALUE.size:
            raise NotALock(f"a lock has {_VALUE.size} bytes, this value {len(value)}")
        state, fence, owner = _VALUE.unpack(value)
        if state == _HELD:
            return cls(fence, owner)
        if state == _FREE and owner == 0:
            return cls(fence, None)
        raise NotALock("the value is neither a free lock nor a held one")

    def value(self) -> bytes:
        """Returns the value of this lock."""
        if self.owner is None:
            return _VALUE.pack(_FREE, self.fence, 0)
        return _VALUE.pack(_HELD, self.fence, self.owner)


@dataclass(frozen=True)
class Terms:
    """On which terms a lock is taken: from another holder or not, and then of any grant or of one; for how many seconds
    to wait for it, None for no end; and whether a grant to this client itself is replaced by a new one. A lock that is
    free is taken on any terms."""

    breaks: bool = False
    broken_fence: int | None = None
    wait: float | None = None
    renews: bool = False

    def __post_init__(self) -> None:
        if self.broken_fence is not None:
            whole("fence", self.broken_fence)
        if self.wait is not None:
            seconds("wait", self.wait)

    def may_break(self, lock: LockState) -> bool:
        """Returns whether the lock may be taken from its holder."""
        return self.breaks and self.broken_fence in (None, lock.fence)


class Patience:
    """How long a client waits between two looks at a lock."""

    def __init__(self, wait: float | None, now: float):
        self._deadline = None if wait is None else now + wait
        self._pause = FIRST_PAUSE

    def pause(self, now: float) -> float | None:
        """Returns the next pause in seconds, or None where the time to wait is over."""
        if self._deadline is None:
            left = self._pause
        elif now >= self._deadline:
            return None
        else:
            left = min(self._pause, self._deadline - now)
        self._pause = min(2 * self._pause, LAST_PAUSE)
        return random.uniform(left / 2, left)


def lock_key(key: Bytes) -> bytes:
    """Returns the bytes of a lock's key. Raises as `get_of` does where it is none."""
    get_of(key)
    return bytes_of(key)


def granted(key: bytes, client: int, terms: Terms) -> Generator[Operation, Answer, int]:
    """Has the lock granted to the client, and returns the fence. Raises `LockHeld` where another holds it."""
    while True:
        found = (yield get_of(key)).value
        lock = LockState.of(found)
        # The owner's number is this client's alone (`Numbers`): it is a grant of its own, whose answer may be lost.
        if lock.owner == client and not terms.renews:
            return lock.fence
        if lock.owner not in (None, client) and not terms.may_break(lock):
            raise LockHeld(lock.owner, lock.fence)
        if lock.fence == LAST_NUMBER:
            raise CrsmError("the lock has no greater fence")
        # No two grants have one fence: of those that found the same value the compare and set lets one through, and
        # that value, with a smaller fence, does not come back as long as nothing else writes the key.
        wanted = LockState(lock.fence + 1, client)
        if (yield cas_of(key, found, wanted.value())).is_done:
            return wanted.fence


def given(key: bytes, client: int, fence: int) -> Generator[Operation, Answer, None]:
    """Gives back the grant with this fence. Raises `LockLost` where the lock is no longer held by it."""
    held, free = LockState(fence, client), LockState(fence, None)
    if not (yield cas_of(key, held.value(), free.value())).is_done:
        raise LockLost(f"the lock was taken from client {client}, which had fence {fence}")
