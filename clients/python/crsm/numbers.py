"""The number of a client and those of its commands, in memory or kept in a file."""

import contextlib
import os
import secrets
import threading
import time
from pathlib import Path
from typing import Self

from .arguments import LAST_NUMBER, whole
from .errors import Closed, InUse

# A kept file is written once for so many commands: it says that all of their numbers may have been used.
RESERVED = 1000

# How many forks lie between this process and the first one that had this module: another count in each child.
_forks = 0


def _count_fork() -> None:
    global _forks
    _forks += 1


# (there is none where no process can be forked)
if hasattr(os, "register_at_fork"):
    os.register_at_fork(after_in_child=_count_fork)


def microseconds() -> int:
    """Returns the clock's microseconds since 1970."""
    return time.time_ns() // 1000


class Numbers:
    """The number of a client, `client`, and that of its last command, `last`: the next one gets a number above it.

    By default the client's number is a random one, and its commands count from 1. It has 64 bits of the system's random
    source, and a store knows 65,536 clients at most: a new client has the number of one of them in one of 2^48 cases.
    Its first commands would be `Stale` or get the answers of that client, and it would hold that client's locks.

    The commands of a client with a given number count from the clock's microseconds since 1970, so that a program that
    is started again goes on above what it has asked before: a command takes more than a microsecond, so the numbers
    before are fewer than the microseconds since. Where the clock was put back they may not be. Then the first command
    is `Stale`, and the client goes on above the number that the store has; but if that is just the first command's
    own number, it gets the answer that was given then, and is not done. `KeptNumbers` do not rest on the clock.

    Numbers are those of the process that has made them. Threads may share them.
    """

    def __init__(self, client: int | None = None, last: int | None = None):
        if last is None:
            last = 0 if client is None else microseconds()
        self.client = secrets.randbits(64) if client is None else whole("client", client, LAST_NUMBER)
        self.last = whole("last", last, LAST_NUMBER)
        self._made_after = _forks
        self._one_at_a_time = threading.Lock()

    def next(self) -> int:
        """Returns the number of a new command, which no other one of this client has.

        Raises `OverflowError` where the last one was 2^64 - 1, `InUse` in a process that was forked since, as both
        would count on from the same one, and `Closed` where the numbers were kept in a file that is given up.
        """
        if self._is_forked():
            raise InUse("these numbers are those of the process that this one was forked from")
        with self._one_at_a_time:
            return self._next()

    def _is_forked(self) -> bool:
        """Returns whether this process was forked from the one that has made the numbers."""
        return self._made_after != _forks

    def _next(self) -> int:
        if self.last == LAST_NUMBER:
            raise OverflowError("this client has no number left")
        self.last += 1
        return self.last

    def pass_over(self, number: int) -> None:
        """Goes on above this number."""
        with self._one_at_a_time:
            self.last = max(self.last, number)

    def close(self) -> None:
        """Gives up what the numbers are kept in."""


class KeptNumbers(Numbers):
    """The numbers of a client that are kept in a file: a program that is started again is the same client.

    The file is locked while a process has it, and while one does that inherits `descriptor`: one process at a time is
    this client. It has a line `CLIENT LAST`, and no number up to LAST is used again, whatever the clock says; nor is
    one below the clock's microseconds since 1970, for a file that is put back from an older copy. A new file, and one
    with anything else in it, gets a random client, as `Numbers` do. The file must not be copied: two copies would be
    one client at a time, whose commands can take each other's answers.

    `close` unlocks the file, and so does the end of the last reference: where a client could not be made with these
    numbers, as its nodes have no address yet, the next try gets the file.
    """

    descriptor = -1

    def __init__(self, path: str | os.PathLike[str]):
        self.path = Path(path)
        self.descriptor = os.open(self.path, os.O_RDWR | os.O_CREAT | os.O_CLOEXEC, 0o600)
        try:
            self._lock()
            kept = _numbers_in(os.pread(self.descriptor, 64, 0))
            super().__init__(*(kept or (None, 0)))
            self.pass_over(min(microseconds(), LAST_NUMBER))
        except BaseException:
            self._unlock()
            raise
        self._reserved = 0

    def __del__(self) -> None:
        self._unlock()

    @classmethod
    def first_free(cls, folder: str | os.PathLike[str], most: int = 1024) -> Self:
        """Takes the first file of a folder, `client-0` to `client-(most - 1)`, that no process has.

        So processes that run at a time are different clients, and a folder has as many as ever ran at a time. Raises
        `InUse` where all are taken.
        """
        os.makedirs(folder, mode=0o700, exist_ok=True)
        for at in range(most):
            try:
                return cls(Path(folder, f"client-{at}"))
            except InUse:
                continue
        raise InUse(f"all {most} clients of {folder} are in use")

    def _next(self) -> int:
        """Returns the number of a new command, once the file says that it may have been used."""
        # Unlocked, the file may be that of another process by now, which counts on in it.
        if self.descriptor < 0:
            raise Closed(f"the client's number is given back: {self.path} is closed")
        number = super()._next()
        if number > self._reserved:
            self._write(min(number + RESERVED - 1, LAST_NUMBER))
        return number

    def close(self) -> None:
        """Unlocks the file. No number comes from it any more. The file of a process that this one was forked from stays
        locked by that one."""
        # (a thread that drew a number at the fork is not here to let go)
        with contextlib.nullcontext() if self._is_forked() else self._one_at_a_time:
            self._unlock()

    def _unlock(self) -> None:
        descriptor, self.descriptor = self.descriptor, -1
        if descriptor >= 0:
            os.close(descriptor)

    def _lock(self) -> None:
        # (not at the head of the file: the rest of the client runs where there is no such module)
        import fcntl

        try:
            fcntl.flock(self.descriptor, fcntl.LOCK_EX | fcntl.LOCK_NB)
        except BlockingIOError:
            raise InUse(f"another process has {self.path}") from None

    def _write(self, last: int) -> None:
        # Of one length, so that nothing of an older line is left behind it.
        line = f"{self.client:020} {last:020}\n".encode()
        if os.pwrite(self.descriptor, line, 0) != len(line):
            raise OSError(f"{self.path} was not written whole")
        os.fsync(self.descriptor)
        self._reserved = last


def _numbers_in(data: bytes) -> tuple[int, int] | None:
    """Reads the line of a kept file: the client and its last number, or None where it has no such line."""
    words = data.split()
    if len(data) != 42 or len(words) != 2 or not all(word.isdigit() for word in words):
        return None
    client, last = (int(word) for word in words)
    return (client, last) if max(client, last) <= LAST_NUMBER else None
