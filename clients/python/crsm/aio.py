"""The client for asyncio: what `crsm.Client` does, by coroutines.

    from crsm.aio import AsyncClient

    async with AsyncClient(["10.0.0.1:7000", "10.0.0.2:7000", "10.0.0.3:7000"]) as store:
        await store.put("colour", "blue")
        async with store.lock("leader") as fence:
            ...
"""

import asyncio
import socket
import time
from collections.abc import Generator, Iterable, Sequence
from dataclasses import dataclass, field
from typing import Self, TypeVar

from .arguments import seconds
from .client import ASKED_AGAIN
from .errors import CrsmError, LockHeld, NoAnswer, NotMembers, Refused
from .exchange import Exchange, Session, Times, why_silent
from .locks import Patience, Terms, given, granted, lock_key
from .numbers import Numbers
from .protocol import (
    DATAGRAM_BYTES,
    Address,
    Answer,
    Bytes,
    Cas,
    Operation,
    cas_of,
    chosen_of,
    delete_of,
    get_of,
    put_of,
)

__all__ = ["AsyncClient", "AsyncLock"]

T = TypeVar("T")


class AsyncLock:
    """A lock of the store, as `AsyncClient.lock` and `break_lock` make it: held while an `async with` block runs."""

    def __init__(self, client: "AsyncClient", key: Bytes, terms: Terms):
        self._client, self._key, self._terms = client, lock_key(key), terms
        self.fence: int | None = None

    async def __aenter__(self) -> int:
        return await self.take()

    async def __aexit__(self, kind: object, *_: object) -> None:
        try:
            await self.give()
        except CrsmError:
            # An error of the statement's own tells more than that the lock could not be given back.
            if kind is None:
                raise

    async def take(self) -> int:
        """Takes the lock and returns its fence. Waits while another holds it, and then raises `LockHeld`."""
        if self.fence is not None:
            raise RuntimeError("this lock is taken already")
        patience = Patience(self._terms.wait, time.monotonic())
        while True:
            try:
                self.fence = await self._try_to_take()
                return self.fence
            except LockHeld:
                pause = patience.pause(time.monotonic())
                if pause is None:
                    raise
            await asyncio.sleep(pause)

    async def give(self) -> None:
        """Gives the lock back. Raises `LockLost` if it is no longer held by this grant."""
        if self.fence is None:
            raise RuntimeError("this lock is not taken")
        fence, self.fence = self.fence, None
        try:
            await self._client._follow(given(self._key, self._client.client, fence))
        finally:
            self._client._let_go(self._key)

    async def _try_to_take(self) -> int:
        """Returns the fence of a grant to this client, which no other task of it may have."""
        claim = await self._client._claim(self._key)
        try:
            claim.fence = await self._client._follow(granted(self._key, self._client.client, self._terms))
        except BaseException:
            self._client._let_go(self._key)
            raise
        claim.settled.set()
        return claim.fence


@dataclass
class _Claim:
    """A lock that a task of a client asks for, or has with this fence once it is settled."""

    fence: int = 0
    settled: asyncio.Event = field(default_factory=asyncio.Event)


class AsyncClient:
    """A client of the cluster whose nodes have these addresses, the i-th that of replica i, for the tasks of one event
    loop. The arguments are those of `crsm.Client`.

    One command is under way at a time, and further ones wait for it: for commands at once have several clients. A
    command that is cancelled may be done none the less.
    """

    def __init__(
        self,
        nodes: Sequence[str | Address],
        *,
        cluster: int = 0,
        client: int | Numbers | None = None,
        timeout: float | None = 10.0,
        node_timeout: float = 1.0,
        resend: float = 0.25,
    ):
        self._session = Session(nodes, cluster, client, Times(timeout, node_timeout, resend))
        self._lock = asyncio.Lock()
        self._claims: dict[bytes, _Claim] = {}
        self._socket = socket.socket(socket.AF_INET, socket.SOCK_DGRAM)
        self._socket.setblocking(False)

    @property
    def client(self) -> int:
        """The client's number."""
        return self._session.numbers.client

    @property
    def numbers(self) -> Numbers:
        """The client's number and that of its last command."""
        return self._session.numbers

    def close(self) -> None:
        """Closes the client: commands raise `Closed` from now on, and so does one that is under way."""
        self._session.is_closed = True
        if not self._lock.locked():
            self._close_parts()

    async def __aenter__(self) -> Self:
        return self

    async def __aexit__(self, *_: object) -> None:
        self.close()

    # ---- commands

    async def get(self, key: Bytes) -> bytes | None:
        """Returns the value of the key, or None."""
        return (await self._ask(get_of(key))).value

    async def get_text(self, key: Bytes) -> str | None:
        """Returns the value of the key as text, or None."""
        value = await self.get(key)
        return None if value is None else value.decode()

    async def put(self, key: Bytes, value: Bytes) -> None:
        """Sets the key to the value."""
        await self._ask(put_of(key, value))

    async def delete(self, key: Bytes) -> bool:
        """Removes the key, and returns whether it was there."""
        return (await self._ask(delete_of(key))).is_done

    async def cas(self, key: Bytes, expected: Bytes | None, new: Bytes | None) -> Cas:
        """Compares and sets: where the key has the expected value, it gets the new one. None stands for no value."""
        answer = await self._ask(cas_of(key, expected, new))
        return Cas(answer.is_done, answer.value)

    async def reconfigure(
        self, members: Iterable[int], *, via: int | None = None, sure: bool = False, timeout: float = 20.0
    ) -> None:
        """Changes the cluster's members to these numbers, as `Client.reconfigure` does."""
        chosen = chosen_of(members)
        seconds("timeout", timeout)
        self.request_members(chosen, via=via, sure=sure)
        await asyncio.sleep(ASKED_AGAIN)
        self.request_members(chosen, via=via, sure=sure)
        until = time.monotonic() + timeout
        here = [number for number in chosen if number < len(self._session.nodes)]
        told = {number: await self._why_silent(number, until) for number in here}
        seen = {number: why for number, why in told.items() if why is not None}
        if seen:
            raise NotMembers(seen)

    def request_members(self, members: Iterable[int], *, via: int | None = None, sure: bool = False) -> None:
        """Sends one datagram that asks for these members, as `Client.request_members` does."""
        datagram, address = self._session.members_request(members, via, sure)
        self._socket.sendto(datagram, address)

    # ---- locks

    def lock(self, key: Bytes, *, wait: float | None = None) -> AsyncLock:
        """Returns the lock at the key, for an `async with` statement, as `Client.lock` does."""
        return AsyncLock(self, key, Terms(wait=wait))

    def break_lock(self, key: Bytes, *, fence: int | None = None) -> AsyncLock:
        """Returns the same lock, which is taken from whoever holds it, as `Client.break_lock` does."""
        return AsyncLock(self, key, Terms(breaks=True, broken_fence=fence, wait=0.0))

    async def _claim(self, key: bytes) -> _Claim:
        """Keeps the lock at the key from other tasks of this client: the store knows the client alone."""
        while (claim := self._claims.get(key)) is not None:
            if claim.settled.is_set():
                raise LockHeld(self.client, claim.fence)
            await claim.settled.wait()
        self._claims[key] = claim = _Claim()
        return claim

    def _let_go(self, key: bytes) -> None:
        """Ends the claim."""
        self._claims.pop(key).settled.set()

    # ---- one command

    async def _follow(self, steps: Generator[Operation, Answer, T]) -> T:
        """Has the operations done that these steps yield, and returns what they come to."""
        try:
            operation = next(steps)
            while True:
                operation = steps.send(await self._ask(operation))
        except StopIteration as end:
            return end.value

    async def _ask(self, operation: Operation) -> Answer:
        """Has the operation done, and returns what the store said."""
        async with self._lock:
            try:
                exchange = self._session.begin(operation, time.monotonic())
                answer = await self._run(exchange)
            finally:
                self._close_if_told()
        return self._session.checked(operation, answer)

    async def _why_silent(self, node: int, until: float) -> str | None:
        """Gets a key at this node alone until it answers or this time has come. Returns why it has not, or None."""
        async with self._lock:
            try:
                exchange = self._session.probe(node, until, time.monotonic())
                await self._run(exchange)
            except (NoAnswer, Refused):
                return why_silent(exchange)
            finally:
                self._close_if_told()
        return None

    def _close_if_told(self) -> None:
        """Closes what a client has that was closed while its command was under way."""
        if self._session.is_closed:
            self._close_parts()

    def _close_parts(self) -> None:
        self._socket.close()
        self._session.numbers.close()

    async def _run(self, exchange: Exchange) -> Answer:
        """Sends the request until a node answers it."""
        while True:
            self._session.check_open()
            now = time.monotonic()
            if exchange.is_over(now):
                raise exchange.failure()
            address = exchange.address_due(now)
            if address is not None and self._send(exchange.datagram, address):
                exchange.was_sent()
            answer = await self._receive(exchange)
            if answer is not None:
                return answer

    def _send(self, datagram: bytes, address: Address) -> bool:
        """Sends a datagram, and returns whether it went out: the system may have no room or no way to the node."""
        try:
            self._socket.sendto(datagram, address)
        except OSError:
            return False
        return True

    async def _receive(self, exchange: Exchange) -> Answer | None:
        """Waits for one datagram, at most until the next copy is due. Returns the answer where it has one."""
        left = exchange.wakes_at() - time.monotonic()
        if left <= 0:
            return None
        size = DATAGRAM_BYTES + len(self._session.mark)
        try:
            async with asyncio.timeout(left):
                data, source = await asyncio.get_running_loop().sock_recvfrom(self._socket, size)
        except (TimeoutError, ConnectionError):
            return None
        return exchange.take(data, source, time.monotonic())
