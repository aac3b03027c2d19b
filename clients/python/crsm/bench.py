"""How fast a cluster does commands of several clients at a time, each of which asks one after another."""

import asyncio
import contextlib
import time
from collections.abc import Sequence
from typing import NamedTuple

from .aio import AsyncClient


class Figures(NamedTuple):
    """What a run gave: commands a second, and the seconds that the median and the slowest hundredth took at least."""

    rate: float
    median: float
    slow: float

    def __str__(self) -> str:
        median, slow = self.median * 1e3, self.slow * 1e3
        return f"{self.rate:,.0f} commands a second; median {median:.2f} ms, 99 % within {slow:.2f} ms"


def measure(stores: Sequence[AsyncClient], seconds: float, size: int) -> Figures | None:
    """Has each client put values of `size` bytes at a key of its own, `bench-0` and so on, for some seconds, and delete
    it. Returns the figures, or None where no command was answered."""

    async def all_of_them() -> list[list[float]]:
        return await asyncio.gather(*(_times(store, f"bench-{at}", seconds, size) for at, store in enumerate(stores)))

    took = sorted(time for times in asyncio.run(all_of_them()) for time in times)
    if not took:
        return None
    return Figures(len(took) / seconds, took[len(took) // 2], took[len(took) * 99 // 100])


async def _times(store: AsyncClient, key: str, seconds: float, size: int) -> list[float]:
    """Returns how many seconds each command of one client took."""
    took: list[float] = []
    with contextlib.suppress(TimeoutError):
        async with asyncio.timeout(seconds):
            while True:
                began = time.monotonic()
                await store.put(key, b"v" * size)
                took.append(time.monotonic() - began)
    await store.delete(key)
    return took
