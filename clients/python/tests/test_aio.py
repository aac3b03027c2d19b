"""Tests of the asyncio client against a small node."""

import asyncio
import time
import unittest

from crsm import Closed, LockHeld, LockLost, NoAnswer, NotMembers, Numbers, Refused
from crsm.aio import AsyncClient

from .small import FAST, ClusterTest, Node, lock_value


class AioTest(ClusterTest, unittest.IsolatedAsyncioTestCase):
    def client(self, *nodes, **how):
        addresses = [node.address if isinstance(node, Node) else node.getsockname() for node in nodes]
        client = AsyncClient(addresses, **{**FAST, **how})
        self.addCleanup(client.close)
        return client

    async def test_commands(self):
        async with self.client(self.node()) as store:
            self.assertIsNone(await store.get("a"))
            await store.put("a", "blue")
            self.assertEqual(await store.get_text("a"), "blue")
            self.assertEqual(tuple(await store.cas("a", "red", "green")), (False, b"blue"))
            self.assertTrue(await store.cas("a", "blue", "green"))
            self.assertTrue(await store.delete("a"))
            self.assertFalse(await store.delete("a"))
        self.assertEqual(self.store.done, 7)

    async def test_lost_packets(self):
        node = self.node(deaf=2, mute=2)
        self.assertTrue(await self.client(node, node_timeout=3.0).cas("a", None, "1"))
        self.assertEqual((len(node.taken), self.store.done), (5, 1))

    async def test_next_node(self):
        store = self.client(self.dead(), self.node(refuse=[1, 3]), self.node(refuse=[2]))
        await store.put("a", "1")
        self.assertEqual(self.store.done, 1)

    async def test_no_answer_and_refused(self):
        with self.assertRaises(NoAnswer):
            await self.client(self.dead(), timeout=0.4).get("a")
        with self.assertRaises(Refused) as caught:
            await self.client(self.node(refuse=[4] * 50), timeout=0.5).get("a")
        self.assertEqual(caught.exception.code, 4)

    async def test_waits_for_ever(self):
        node = self.node(deaf=15)
        await self.client(node, timeout=None).put("a", "1")
        self.assertEqual((len(node.taken), self.store.done), (16, 1))

    async def test_cancelled(self):
        node = self.node(mute=99)
        store = self.client(node, timeout=None)
        with self.assertRaises(TimeoutError):
            async with asyncio.timeout(0.3):
                await store.put("a", "1")
        node.mute = 0
        await store.put("a", "2")
        self.assertEqual((self.store.rows, self.store.done), ({b"a": b"2"}, 2))

    async def test_tasks_share_a_client(self):
        store = self.client(self.node())
        await store.put("n", "0")

        async def count():
            for _ in range(10):
                while not await store.cas("n", had := await store.get("n"), str(int(had) + 1)):
                    pass

        await asyncio.gather(*(count() for _ in range(4)))
        self.assertEqual(await store.get("n"), b"40")

    async def test_closed(self):
        store = self.client(self.dead(), timeout=None, resend=0.2)
        under_way = asyncio.create_task(store.get("a"))
        await asyncio.sleep(0.1)
        store.close()
        with self.assertRaises(Closed):
            await store.put("a", "1")
        with self.assertRaises(Closed):
            await under_way
        with self.assertRaises(Closed):
            store.request_members([0])

    async def test_neither_bytes_nor_text(self):
        store = self.client(self.node())
        with self.assertRaises(TypeError):
            await store.put("a", 5)
        with self.assertRaises(TypeError):
            store.lock(5)

    async def test_locks(self):
        node = self.node()
        first, second = self.client(node, client=5), self.client(node, client=6)
        async with first.lock("a") as fence:
            self.assertEqual(fence, 1)
            self.assertEqual(self.store.rows, {b"a": lock_value(1, 1, 5)})
            with self.assertRaises(LockHeld) as caught:
                await second.lock("a", wait=0.1).take()
            self.assertEqual((caught.exception.owner, caught.exception.fence), (5, 1))
        self.assertEqual(self.store.rows, {b"a": lock_value(0, 1, 0)})
        with self.assertRaises(LockLost):
            async with first.lock("a"):
                await second.break_lock("a", fence=2).take()
        with self.assertRaises(KeyError):
            async with first.lock("b"):
                raise KeyError("of the statement's own")

    async def test_tasks_contend(self):
        node = self.node()
        inside, most, fences = [], [], []

        async def work(client):
            for _ in range(5):
                async with client.lock("a") as fence:
                    inside.append(fence)
                    most.append(len(inside))
                    fences.append(fence)
                    await asyncio.sleep(0.005)
                    inside.remove(fence)

        clients = [self.client(node, timeout=10.0) for _ in range(3)]
        await asyncio.gather(*(work(client) for client in clients + clients[:1]))
        self.assertEqual(most, [1] * 20)
        self.assertEqual(fences, sorted(set(fences)))

    async def test_break_while_a_task_waits(self):
        node = self.node()
        await self.client(node).lock("a").take()
        client = self.client(node)
        waiter = asyncio.create_task(client.lock("a").take())
        await asyncio.sleep(0.3)
        lock = client.break_lock("a", fence=1)
        self.assertEqual(await lock.take(), 2)
        await lock.give()
        self.assertEqual(await waiter, 3)

    async def test_reconfigure(self):
        nodes = [self.node(), self.node(refuse=[1] * 99), self.dead()]
        client = self.client(*nodes)
        await client.reconfigure([0], sure=True)
        began = time.monotonic()
        with self.assertRaises(NotMembers) as caught:
            await client.reconfigure([0, 1, 2], timeout=0.3)
        self.assertEqual(sorted(caught.exception.seen), [1, 2])
        self.assertLess(time.monotonic() - began, 15.0)

    async def test_bytes(self):
        node = self.node(cluster=9)
        await self.client(node, cluster=9, client=Numbers(7, 0)).put("a", "b")
        zeros = "0" * 15
        self.assertEqual(node.taken[0].hex(), f"10{zeros}9" + f"04{zeros}7{zeros}1" + "020161000162")


if __name__ == "__main__":
    unittest.main()
