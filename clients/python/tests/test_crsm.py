"""Tests of the client against a small node."""

import contextlib
import os
import socket
import struct
import subprocess
import sys
import tempfile
import threading
import time
import unittest
from unittest import mock

from crsm import (
    Client,
    Closed,
    CrsmError,
    InUse,
    KeptNumbers,
    LockHeld,
    LockLost,
    NoAnswer,
    NoRoom,
    NotALock,
    NotMembers,
    Numbers,
    Refused,
    Stale,
    Unsafe,
)
from crsm.aio import AsyncClient
from crsm.exchange import Exchange, Ring, Times

from .small import FAST, ClusterTest, lock_value, spelt

HERE = os.path.dirname(os.path.dirname(os.path.abspath(__file__)))


class ClientTest(ClusterTest):
    def test_commands(self):
        client = self.client(self.node())
        self.assertIsNone(client.get("a"))
        client.put("a", "blue")
        self.assertEqual(client.get(b"a"), b"blue")
        self.assertEqual(client.get_text("a"), "blue")
        self.assertEqual(tuple(client.cas("a", "red", "green")), (False, b"blue"))
        self.assertTrue(client.cas("a", "blue", "green"))
        self.assertFalse(client.cas("b", "x", None))
        self.assertTrue(client.cas("b", None, ""))
        self.assertEqual(client.get("b"), b"")
        self.assertTrue(client.cas("b", "", None))
        self.assertTrue(client.delete("a"))
        self.assertFalse(client.delete("a"))
        self.assertIsNone(client.get_text("a"))
        self.assertEqual(self.store.done, 13)

    def test_bytes(self):
        node = self.node()
        client = self.client(node, client=Numbers(7, 0))
        client.put("a", "b")
        client.get("é")
        client.cas("a", None, bytes(512))
        client.delete(b"\xff" * 64)
        zeros = "0" * 15
        self.assertEqual(node.taken[0].hex(), f"04{zeros}7{zeros}1" + "020161000162")
        self.assertEqual(node.taken[1].hex(), f"04{zeros}7{zeros}2" + "0102c3a9")
        self.assertEqual(node.taken[2].hex(), f"04{zeros}7{zeros}3" + "040161000102" + "00" * 513)
        self.assertEqual(node.taken[3].hex(), f"04{zeros}7{zeros}4" + "0340" + "ff" * 64)

    def test_lost_requests(self):
        node = self.node(deaf=2)
        self.client(node, node_timeout=3.0).put("a", "1")
        self.assertEqual((len(node.taken), self.store.done), (3, 1))

    def test_copies_do_not_follow_one_another_faster(self):
        node = "127.0.0.1", 7000
        exchange = Exchange(b"", b"", (7, 1), Ring([node]), Times(timeout=1.1, node_timeout=5.0, resend=0.25), 10.0)
        seen = []
        for hundredth in range(110):
            now = 10.0 + hundredth / 100
            if exchange.address_due(now) is not None:
                seen.append(hundredth)
            self.assertFalse(exchange.is_over(now))
        # (the last copy has as long to be answered as the others)
        self.assertEqual(seen, [0, 25, 50, 75])
        self.assertTrue(exchange.is_over(11.2))

    def test_lost_replies(self):
        node = self.node(mute=2)
        self.assertTrue(self.client(node, node_timeout=3.0).cas("a", None, "1"))
        self.assertEqual((len(node.taken), self.store.done), (3, 1))

    def test_dead_node(self):
        dead, node = self.dead(), self.node()
        client = self.client(dead, node)
        client.put("a", "1")
        dead.recv(9000)
        with self.assertRaises(BlockingIOError):
            for _ in range(100):
                dead.recv(9000)
        client.put("a", "2")
        with self.assertRaises(BlockingIOError):
            dead.recv(9000)
        self.assertEqual(self.store.rows, {b"a": b"2"})

    def test_refusals(self):
        first, second = self.node(refuse=[1, 3]), self.node(refuse=[2])
        self.client(first, second).put("a", "1")
        self.assertEqual(self.store.done, 1)
        self.assertEqual(len({bytes(taken) for taken in first.taken + second.taken}), 1)

    def test_a_node_whose_epoch_ends_is_asked_again(self):
        first, second = self.node(refuse=[2, 6, 2]), self.node()
        self.client(first, second).put("a", "1")
        self.assertEqual((len(first.taken), second.taken), (4, []))
        self.assertLess(first.times[-1] - first.times[0], 3 * FAST["resend"])

    def test_a_silent_node_is_avoided(self):
        first, last = self.node(), self.node()
        client = self.client(first, self.dead(), last)
        first.refuse = [3]
        client.put("a", "1")
        first.refuse, last.refuse = [3], [3, 3]
        began = time.monotonic()
        client.put("a", "2")
        self.assertLess(time.monotonic() - began, FAST["node_timeout"])
        self.assertEqual(self.store.done, 2)

    def test_done_by_a_node_that_is_not_heard(self):
        first, second = self.node(mute=9), self.node(refuse=[6])
        self.assertTrue(self.client(first, second).cas("a", None, "1"))
        self.assertEqual(self.store.done, 1)

    def test_refused(self):
        nodes = self.node(refuse=[4] * 50), self.node(refuse=[5] * 50)
        client = self.client(*nodes, timeout=1.2, resend=0.4)
        with self.assertRaises(Refused) as caught:
            client.put("a", "1")
        self.assertIn(caught.exception.code, (4, 5))
        self.assertEqual(self.store.done, 0)

    def test_no_answer(self):
        with self.assertRaises(NoAnswer):
            self.client(self.dead(), self.dead(), timeout=0.4).get("a")

    def test_a_node_without_room_is_asked_less_often(self):
        node = self.node(refuse=[3, 4, 3, 3])
        began = time.monotonic()
        self.client(node).put("a", "1")
        # Pauses of 30, 60, 120 and 240 ms.
        self.assertGreater(time.monotonic() - began, 0.44)
        self.assertEqual(node.refuse, [])

    def test_refused_and_lost_is_no_answer(self):
        with self.assertRaises(NoAnswer):
            self.client(self.node(refuse=[1] * 50), self.dead(), timeout=0.6).put("a", "1")

    def test_wrong_senders(self):
        stranger = socket.socket(socket.AF_INET, socket.SOCK_DGRAM)
        self.addCleanup(stranger.close)
        node = self.node(deaf=1)
        client = self.client(node, client=Numbers(7, 0))
        port = []

        def forge():
            while not node.taken:
                time.sleep(0.01)
            port.append(client._socket.getsockname()[1])
            stranger.sendto(b"\x05" + struct.pack(">QQ", 7, 1) + b"\0\x01" + spelt(b"forged"), ("127.0.0.1", port[0]))

        forger = threading.Thread(target=forge)
        forger.start()
        self.assertIsNone(client.get("a"))
        forger.join()
        self.assertTrue(port)

    def test_wrong_datagrams(self):
        wrong = [
            lambda mark, head, answer: b"",
            lambda mark, head, answer: mark + b"\x05",
            lambda mark, head, answer: mark + head + b"\0" + answer + b"\0",
            lambda mark, head, answer: mark + head + b"\x07",
            lambda mark, head, answer: mark + head + b"\0\x09",
            lambda mark, head, answer: mark + head + b"\0\x01\x02\x01" + bytes(513),
            lambda mark, head, answer: mark + head + b"\0\x04\x02",
            lambda mark, head, answer: mark + b"\x04" + head[1:] + b"\0" + answer,
            lambda mark, head, answer: mark + head[:9] + struct.pack(">Q", 9) + b"\0\x01\0\0",
            lambda mark, head, answer: mark + b"\x05" + struct.pack(">Q", 8) + head[9:] + b"\0\x01\0\0",
            lambda mark, head, answer: b"\x10" + struct.pack(">Q", 8) + head + b"\0\x01\0\0",
        ]
        for cluster in (0, 9):
            client = self.client(self.node(before=wrong, cluster=cluster), cluster=cluster)
            self.assertIsNone(client.get("a"))

    def test_clusters(self):
        node, other = self.node(cluster=9), self.node(cluster=8)
        self.client(other, node, cluster=9, client=Numbers(7, 0)).put("a", "b")
        zeros = "0" * 15
        self.assertEqual(node.taken[0].hex(), f"10{zeros}9" + f"04{zeros}7{zeros}1" + "020161000162")
        self.assertEqual(self.store.done, 1)

    def test_stale(self):
        node = self.node()
        self.store.clients[7] = (20, b"\x03")
        client = self.client(node, client=Numbers(7, 0))
        with self.assertRaises(Stale) as caught:
            client.put("a", "1")
        self.assertEqual(caught.exception.number, 20)
        client.put("a", "2")
        self.assertEqual(self.store.rows, {b"a": b"2"})

    def test_answer_of_another_command(self):
        self.store.clients[7] = (1, b"\x03")
        with self.assertRaises(CrsmError):
            self.client(self.node(), client=Numbers(7, 0)).get("a")

    def test_no_room(self):
        client = self.client(self.node())
        for key in "abc":
            client.put(key, "1")
        with self.assertRaises(NoRoom):
            client.put("d", "1")

    def test_limits(self):
        node = self.node()
        client = self.client(node)
        for key, value in (("", "1"), ("k" * 65, "1"), ("a", "v" * 513)):
            with self.assertRaises(ValueError):
                client.put(key, value)
        client.put("k" * 64, "v" * 512)
        self.assertEqual(client.get("k" * 64), b"v" * 512)
        self.assertEqual(len(node.taken), 2)

    def test_neither_bytes_nor_text(self):
        node = self.node()
        client = self.client(node)
        for wrong in (5, [1, 2], 1.5, True, {1}, ("a",)):
            for ask in (
                lambda: client.get(wrong),
                lambda: client.put("a", wrong),
                lambda: client.cas("a", wrong, None),
                lambda: client.cas("a", None, wrong),
                lambda: client.lock(wrong),
            ):
                with self.assertRaises(TypeError):
                    ask()
        for none in (client.get, client.delete, client.lock):
            with self.assertRaises(TypeError):
                none(None)
        with self.assertRaises(TypeError):
            client.put("a", None)
        self.assertEqual(node.taken, [])
        client.put(bytearray(b"a"), memoryview(b"b"))
        self.assertEqual(client.get("a"), b"b")

    def test_waits_for_ever(self):
        node = self.node(deaf=15)
        self.client(node, self.dead(), timeout=None).put("a", "1")
        self.assertEqual((len(node.taken), self.store.done), (16, 1))
        # (0 stands for no end, too)
        node.deaf = 3
        self.client(node, timeout=0).put("a", "2")
        self.assertEqual((len(node.taken), self.store.rows), (20, {b"a": b"2"}))

    def test_closed(self):
        node = self.node()
        client = self.client(node)
        lock = client.lock("a")
        lock.take()
        client.close()
        client.close()
        done = self.store.done
        for ask in (
            lambda: client.get("a"),
            lambda: client.put("a", "1"),
            lambda: client.lock("b").take(),
            lambda: client.request_members([0]),
            lambda: client.reconfigure([0]),
            lock.give,
        ):
            with self.assertRaises(Closed):
                ask()
        self.assertEqual(self.store.done, done)

    def test_closed_while_a_command_is_under_way(self):
        client = self.client(self.dead(), timeout=None, resend=5.0)
        threading.Timer(0.2, client.close).start()
        began = time.monotonic()
        with self.assertRaises(Closed):
            client.get("a")
        self.assertLess(time.monotonic() - began, 4.0)

    def test_request_members(self):
        nodes = [self.node(cluster=9) for _ in range(3)]
        client = self.client(*nodes, cluster=9)
        client.request_members([1, 0])
        client.request_members([2, 1], via=2)
        for members in ([1], [1, 3], [9, 10, 11]):
            with self.assertRaises(Unsafe):
                client.request_members(members)
        client.request_members([1], sure=True)
        for members, via in (([], None), ([-1, 0], None), ([0, 1, 15], None), ([0, 1], 3)):
            with self.assertRaises(ValueError):
                client.request_members(members, via=via)
        time.sleep(0.2)
        mark = "10" + "0" * 15 + "9"
        taken = [[data.hex() for data in node.taken] for node in nodes]
        self.assertEqual(taken, [[mark + "06020001"], [mark + "060101"], [mark + "06020102"]])

    def test_reconfigure(self):
        nodes = [self.node(refuse=refusals) for refusals in ([], [], [1, 1, 2])]
        client = self.client(*nodes, timeout=5.0)
        client.reconfigure([2, 0])
        orders = [[at for data, at in zip(node.taken, node.times) if data[0] == 6] for node in nodes]
        self.assertEqual([len(times) for times in orders], [2, 0, 0])
        self.assertGreaterEqual(orders[0][1] - orders[0][0], 0.9)
        self.assertEqual([data for data in nodes[0].taken if data[0] == 6], [bytes([6, 2, 0, 2])] * 2)
        # (each member is asked for one command, again and again until it answers)
        commands = [[data for data in node.taken if data[0] == 4] for node in nodes]
        self.assertEqual([len(set(asked)) for asked in commands], [1, 0, 1])
        self.assertGreaterEqual(len(commands[2]), 4)
        # (a command that follows is not taken for one that was done before)
        client.put("a", "1")
        self.assertEqual(client.get("a"), b"1")

    def test_reconfigure_in_vain(self):
        client = self.client(self.node(), self.node(refuse=[1] * 99), self.dead())
        with self.assertRaises(NotMembers) as caught:
            client.reconfigure([0, 1, 2], timeout=0.5)
        self.assertEqual(
            caught.exception.seen,
            {1: "the node is not part of the current epoch", 2: "it has not answered"},
        )

    def test_wrong_use(self):
        here = ["127.0.0.1:7000"]
        for error, name, nodes, how in (
            (ValueError, "nodes", [], {}),
            (ValueError, "nodes", here * 2, {}),
            (ValueError, "nodes", ["127.0.0.1"], {}),
            (ValueError, "nodes", ["127.0.0.1:x"], {}),
            (ValueError, "nodes", ["127.0.0.1:-1"], {}),
            (ValueError, "nodes", ["127.0.0.1:0"], {}),
            (ValueError, "nodes", ["127.0.0.1:70000"], {}),
            (ValueError, "nodes", [":7000"], {}),
            (ValueError, "nodes", ["0.0.0.0:7000"], {}),
            (ValueError, "nodes", ["[::1]:7000"], {}),
            (ValueError, "nodes", ["::1:7000"], {}),
            (ValueError, "nodes", [("::1", 7000)], {}),
            (ValueError, "nodes", ["a" * 70 + ":7000"], {}),
            (TypeError, "nodes", here[0], {}),
            (TypeError, "nodes", None, {}),
            (TypeError, "nodes", [5], {}),
            (TypeError, "nodes", [b"127.0.0.1:7000"], {}),
            (TypeError, "nodes", [("127.0.0.1", "7000")], {}),
            (TypeError, "nodes", [("127.0.0.1", 7000, 1)], {}),
            (ValueError, "cluster", here, {"cluster": -1}),
            (TypeError, "cluster", here, {"cluster": "9"}),
            (ValueError, "client", here, {"client": 2**64}),
            (ValueError, "client", here, {"client": -1}),
            (TypeError, "client", here, {"client": 7.0}),
            (TypeError, "client", here, {"client": "7"}),
            (TypeError, "client", here, {"client": True}),
            (ValueError, "resend", here, {"resend": 0.05}),
            (TypeError, "resend", here, {"resend": None}),
            (ValueError, "timeout", here, {"timeout": -1}),
            (ValueError, "timeout", here, {"timeout": float("nan")}),
            (TypeError, "timeout", here, {"timeout": "5"}),
            (ValueError, "node_timeout", here, {"node_timeout": -0.5}),
            (TypeError, "node_timeout", here, {"node_timeout": "1"}),
        ):
            for kind in Client, AsyncClient:
                with self.subTest(kind=kind, nodes=nodes, how=how), self.assertRaisesRegex(error, f"^{name}: "):
                    kind(nodes, **how)
        with self.assertRaisesRegex(TypeError, "^last: "):
            Numbers(7, "5")

    def test_wrong_words_of_methods(self):
        node = self.node()
        client = self.client(node)
        for error, name, ask in (
            (TypeError, "members", lambda: client.reconfigure(0)),
            (TypeError, "members", lambda: client.reconfigure("012")),
            (TypeError, "members", lambda: client.request_members(["0"])),
            (ValueError, "members", lambda: client.request_members([])),
            (TypeError, "via", lambda: client.request_members([0], via="0")),
            (ValueError, "via", lambda: client.request_members([0], via=1)),
            (TypeError, "timeout", lambda: client.reconfigure([0], timeout="1")),
            (ValueError, "timeout", lambda: client.look(timeout=-1)),
            (TypeError, "wait", lambda: client.lock("a", wait="1")),
            (ValueError, "wait", lambda: client.lock("a", wait=-1)),
            (TypeError, "fence", lambda: client.break_lock("a", fence="7")),
            (ValueError, "fence", lambda: client.break_lock("a", fence=-1)),
        ):
            with self.subTest(name), self.assertRaisesRegex(error, f"^{name}: "):
                ask()
        self.assertEqual(node.taken, [])

    def test_clients_have_numbers_of_their_own(self):
        node = self.node()
        self.assertNotEqual(self.client(node).client, self.client(node).client)

    def test_given_number_goes_on_above_what_it_asked_before(self):
        node = self.node()
        self.client(node, client=7).put("a", "1")
        self.client(node, client=7).put("a", "2")
        self.assertEqual(self.store.rows, {b"a": b"2"})

    def test_threads_share_a_client(self):
        client = self.client(self.node())
        client.put("n", "0")

        def count():
            for _ in range(10):
                while True:
                    had = client.get("n")
                    if client.cas("n", had, str(int(had) + 1)):
                        break

        threads = [threading.Thread(target=count) for _ in range(4)]
        for thread in threads:
            thread.start()
        for thread in threads:
            thread.join()
        self.assertEqual(client.get("n"), b"40")


class KeptNumbersTest(ClusterTest):
    def setUp(self):
        super().setUp()
        folder = tempfile.TemporaryDirectory()
        self.addCleanup(folder.cleanup)
        self.folder = folder.name
        self.path = os.path.join(folder.name, "client")

    def test_same_client_again(self):
        node = self.node()
        before = 0
        for value in ("1", "2", "3"):
            with self.client(node, client=KeptNumbers(self.path)) as client:
                client.put("a", value)
                self.assertGreater(client.numbers.last, before)
                before = client.numbers.last
        self.assertEqual(len(self.store.clients), 1)
        self.assertEqual((self.store.rows, self.store.done), ({b"a": b"3"}, 3))

    def test_goes_on_above_the_file_where_the_clock_was_put_back(self):
        with open(self.path, "w", encoding="ascii") as file:
            file.write(f"{9:020} {2**63:020}\n")
        kept = KeptNumbers(self.path)
        self.addCleanup(kept.close)
        self.assertEqual((kept.client, kept.next()), (9, 2**63 + 1))
        with open(self.path, encoding="ascii") as file:
            self.assertEqual(file.read(), f"{9:020} {2**63 + 1000:020}\n")

    def test_goes_on_above_the_clock_where_the_file_is_old(self):
        with open(self.path, "w", encoding="ascii") as file:
            file.write(f"{9:020} {5:020}\n")
        with contextlib.closing(KeptNumbers(self.path)) as kept:
            self.assertGreater(kept.next(), 1_700_000_000_000_000)

    def test_is_written_before_a_number_is_used(self):
        kept = KeptNumbers(self.path)
        self.addCleanup(kept.close)
        for _ in range(2500):
            number = kept.next()
            with open(self.path, encoding="ascii") as file:
                self.assertGreaterEqual(int(file.read().split()[1]), number)

    def test_what_is_no_line_gets_a_new_client(self):
        for wrong in ("", "7 8\n", "x" * 42, f"{2**64:020} {1:020}\n", f"{9:020} {5:020}\n\n", f"{-9:020} {5:020}\n"):
            with open(self.path, "w", encoding="ascii") as file:
                file.write(wrong)
            with contextlib.closing(KeptNumbers(self.path)) as kept:
                self.assertNotIn(kept.client, (7, 9))

    def test_closed(self):
        kept = KeptNumbers(self.path)
        kept.next()
        kept.close()
        kept.close()
        with self.assertRaisesRegex(Closed, "client is closed"):
            kept.next()
        node = self.node()
        store = self.client(node, client=kept)
        with self.assertRaises(Closed):
            store.put("a", "1")
        self.assertEqual(node.taken, [])

    def test_let_go(self):
        for nodes, error in ((["nowhere:7000"], OSError), (["127.0.0.1"], ValueError)):
            with mock.patch("socket.gethostbyname", side_effect=socket.gaierror), self.assertRaises(error):
                Client(nodes, client=KeptNumbers(self.path))
        with self.assertRaises(InUse), contextlib.closing(KeptNumbers(self.path)):
            KeptNumbers(self.path)
        with self.assertRaises(NotADirectoryError):
            KeptNumbers(f"{self.path}/none")
        with contextlib.closing(KeptNumbers(self.path)) as kept:
            kept.next()

    def test_closed_by_the_other_client_that_has_them(self):
        kept = KeptNumbers(self.path)
        first, second = self.client(self.node(), client=kept), self.client(self.node(), client=kept)
        first.put("a", "1")
        second.put("a", "2")
        first.close()
        with self.assertRaises(Closed):
            second.put("a", "3")
        self.assertEqual(self.store.rows, {b"a": b"2"})

    def test_forked(self):
        script = """
import os, sys
from crsm import InUse, KeptNumbers, Numbers
kept = KeptNumbers(sys.argv[1])
for numbers in (kept, Numbers(), Numbers(7)):
    numbers.next()
    if os.fork() == 0:
        try:
            numbers.next()
        except InUse:
            # (what a child closes stays locked by its parent)
            numbers.close()
            os._exit(0)
        os._exit(1)
    assert os.wait()[1] == 0, numbers
    numbers.next()
    try:
        KeptNumbers(sys.argv[1])
    except InUse:
        continue
    raise AssertionError("two have the file")
kept.close()
"""
        words = [sys.executable, "-B", "-W", "error", "-c", script, self.path]
        subprocess.run(words, cwd=HERE, check=True)

    def test_threads_share_numbers(self):
        numbers = Numbers(7, 0)
        drawn = [[] for _ in range(4)]

        def draw(to):
            to.extend(numbers.next() for _ in range(5000))

        threads = [threading.Thread(target=draw, args=(to,)) for to in drawn]
        for thread in threads:
            thread.start()
        for thread in threads:
            thread.join()
        self.assertEqual(sorted(number for to in drawn for number in to), list(range(1, 20001)))

    def test_one_process_at_a_time(self):
        with contextlib.closing(KeptNumbers(self.path)), self.assertRaises(InUse):
            KeptNumbers(self.path)
        taken = [KeptNumbers.first_free(self.folder) for _ in range(3)]
        for kept in taken:
            kept.next()
        self.assertEqual(len({kept.client for kept in taken}), 3)
        with self.assertRaises(InUse):
            KeptNumbers.first_free(self.folder, most=3)
        taken[1].close()
        with contextlib.closing(KeptNumbers.first_free(self.folder)) as again:
            self.assertEqual(again.client, taken[1].client)
        for kept in taken:
            kept.close()


class LockTest(ClusterTest):
    def client(self, *nodes, **how):
        return super().client(*nodes, **{"timeout": 10.0, **how})

    def test_value_of_a_lock(self):
        client = self.client(self.node(), client=5)
        with client.lock("a") as fence:
            self.assertEqual(fence, 1)
            self.assertEqual(self.store.rows, {b"a": lock_value(1, 1, 5)})
        self.assertEqual(self.store.rows, {b"a": lock_value(0, 1, 0)})
        with client.lock("a") as fence:
            self.assertEqual(fence, 2)
        self.assertEqual(self.store.done, 6)

    def test_held_by_another(self):
        node = self.node()
        first, second = self.client(node, client=5), self.client(node, client=6)
        with first.lock("a"):
            for wait in (0, 0.3):
                with self.assertRaises(LockHeld) as caught:
                    second.lock("a", wait=wait).take()
                self.assertEqual((caught.exception.owner, caught.exception.fence), (5, 1))
        self.assertEqual(second.lock("a", wait=0).take(), 2)

    def test_waits_until_it_is_given_back(self):
        node = self.node()
        first, second = self.client(node), self.client(node)
        held, taken = first.lock("a"), []
        held.take()
        waiter = threading.Thread(target=lambda: taken.append(second.lock("a").take()))
        waiter.start()
        time.sleep(0.3)
        self.assertEqual(taken, [])
        held.give()
        waiter.join(timeout=10.0)
        self.assertEqual(taken, [2])

    def test_looks_seldom_while_it_waits(self):
        node = self.node()
        self.client(node).lock("a").take()
        done = self.store.done
        with self.assertRaises(LockHeld):
            self.client(node).lock("a", wait=1.0).take()
        self.assertLess(self.store.done - done, 12)

    def test_clients_contend(self):
        node = self.node()
        inside, fences, most = [], [], []

        def work(client):
            for _ in range(5):
                with client.lock("a") as fence:
                    inside.append(fence)
                    most.append(len(inside))
                    fences.append(fence)
                    time.sleep(0.005)
                    inside.remove(fence)

        clients = [self.client(node) for _ in range(3)]
        # Threads of one client exclude each other, too.
        threads = [threading.Thread(target=work, args=(client,)) for client in clients + clients[:1]]
        for thread in threads:
            thread.start()
        for thread in threads:
            thread.join()
        self.assertEqual(most, [1] * 20)
        self.assertEqual(fences, sorted(fences))
        self.assertEqual(len(set(fences)), 20)

    def test_broken_while_a_thread_waits(self):
        node = self.node()
        self.client(node).lock("a").take()
        client, taken = self.client(node), []
        waiter = threading.Thread(target=lambda: taken.append(client.lock("a").take()))
        waiter.start()
        time.sleep(0.3)
        lock = client.break_lock("a", fence=1)
        self.assertEqual(lock.take(), 2)
        lock.give()
        waiter.join(timeout=10.0)
        self.assertEqual(taken, [3])

    def test_broken(self):
        node = self.node()
        gone, heir = self.client(node, client=5), self.client(node, client=6)
        lost = gone.lock("a")
        self.assertEqual(lost.take(), 1)
        with self.assertRaises(LockHeld):
            heir.break_lock("a", fence=7).take()
        with heir.break_lock("a", fence=1) as fence:
            self.assertEqual(fence, 2)
            self.assertEqual(self.store.rows, {b"a": lock_value(1, 2, 6)})
            with self.assertRaises(LockLost):
                lost.give()
        with heir.break_lock("a") as fence:
            self.assertEqual(fence, 3)

    def test_broken_where_nobody_else_holds_it(self):
        node = self.node()
        client, other = self.client(node), self.client(node)
        # It is free, and taken as by `lock`, whatever the fence.
        for at, fence in enumerate((None, 7, 1, 2), 1):
            with client.break_lock("a", fence=fence) as granted:
                self.assertEqual(granted, at)
        # This client holds it, and its grant stays.
        first = client.lock("a")
        self.assertEqual(first.take(), 5)
        client._let_go(b"a")
        self.assertEqual(client.break_lock("a", fence=2).take(), 5)
        with self.assertRaises(LockHeld):
            other.break_lock("a", fence=4).take()

    def test_lost_while_the_statement_runs(self):
        node = self.node()
        first, second = self.client(node), self.client(node)
        with self.assertRaises(LockLost):
            with first.lock("a"):
                second.break_lock("a").take()
        with self.assertRaises(KeyError):
            with first.lock("b"):
                second.break_lock("b", fence=1).take()
                raise KeyError("of the statement's own")

    def test_given_back_after_an_error(self):
        client = self.client(self.node())
        with self.assertRaises(KeyError):
            with client.lock("a"):
                raise KeyError("of the statement's own")
        self.assertEqual(self.store.rows, {b"a": lock_value(0, 1, 0)})

    def test_no_answer_to_the_take(self):
        # The look is answered. The compare and set is done, and its answers are lost.
        node = self.node()
        client = self.client(node, client=5, timeout=1.0)
        asked = client._ask

        def lossy(operation):
            node.mute = 99 if operation.data[0] == 4 else 0
            return asked(operation)

        client._ask = lossy
        with self.assertRaises(NoAnswer):
            client.lock("a").take()
        self.assertEqual(self.store.rows, {b"a": lock_value(1, 1, 5)})
        client._ask, client._session.times, node.mute = asked, Times(), 0
        with client.lock("a", wait=0) as fence:
            self.assertEqual(fence, 1)

    def test_no_locks(self):
        client = self.client(self.node(), client=5)
        for value in (b"", bytes(16), bytes(18), lock_value(0, 1, 5), lock_value(2, 1, 5)):
            client.put("a", value)
            with self.assertRaises(NotALock):
                client.lock("a").take()
        client.put("a", lock_value(0, 2**64 - 1, 0))
        with self.assertRaises(CrsmError):
            client.lock("a").take()
        client.put("a", lock_value(0, 2**64 - 2, 0))
        self.assertEqual(client.lock("a").take(), 2**64 - 1)

    def test_wrong_use(self):
        client = self.client(self.node())
        for key in ("", "k" * 65):
            with self.assertRaises(ValueError):
                client.lock(key)
        lock = client.lock("a")
        with self.assertRaises(RuntimeError):
            lock.give()
        lock.take()
        with self.assertRaises(RuntimeError):
            lock.take()
        with self.assertRaises(LockHeld):
            client.lock("a", wait=0).take()
        lock.give()


if __name__ == "__main__":
    unittest.main()
