"""Tests of `python3 -m crsm` against a small node."""

import contextlib
import io
import os
import signal
import socket
import subprocess
import sys
import tempfile
import time
import unittest
from unittest import mock

from crsm import KeptNumbers, __version__
from crsm.commands import main
from crsm.load import CutDump, NotADump, keys_of

from .small import ClusterTest, lock_value

HERE = os.path.dirname(os.path.dirname(os.path.abspath(__file__)))
SHOWS_FENCE = ["--", "sh", "-c", "echo $CRSM_FENCE"]


class CommandsTest(ClusterTest):
    def setUp(self):
        super().setUp()
        self.state = tempfile.TemporaryDirectory()
        self.addCleanup(self.state.cleanup)
        self.served = self.node()

    def environment(self):
        host, port = self.served.address
        kept = {name: value for name, value in os.environ.items() if not name.startswith("CRSM_")}
        return {**kept, "CRSM_NODES": f"{host}:{port}", "XDG_STATE_HOME": self.state.name}

    def started(self, *words, **how):
        command = [sys.executable, "-B", "-W", "error", "-m", "crsm", *words]
        pipes = {"stdin": subprocess.PIPE, "stdout": subprocess.PIPE, "stderr": subprocess.PIPE}
        return subprocess.Popen(command, cwd=HERE, env=self.environment(), **{**pipes, **how})

    def ran(self, *words, given=b"", **how):
        with self.started(*words, **how) as process:
            out, err = process.communicate(given)
        return process.returncode, out, err.decode()

    def ran_here(self, *words, given=b""):
        """What a command comes to that this process runs: half a second less than a process of its own takes."""
        streams = [io.TextIOWrapper(io.BytesIO(data), write_through=True) for data in (given, b"", b"")]
        names = "stdin", "stdout", "stderr"
        with mock.patch.multiple(sys, **dict(zip(names, streams))), mock.patch.dict(os.environ, self.environment()):
            try:
                status = main(words)
            except SystemExit as end:
                status = end.code
        return status, streams[1].buffer.getvalue(), streams[2].buffer.getvalue().decode()

    def check(self, words, status, out=b"", err="", given=b""):
        ran = self.ran if "lock" in words else self.ran_here
        ended, wrote, said = ran(*words, given=given)
        self.assertEqual((ended, wrote), (status, out), said)
        self.assertIn(err, said)
        self.assertNotIn("Traceback", said)

    def test_commands(self):
        self.check(["get", "a"], 1, err="missing")
        self.check(["put", "a", "blue"], 0)
        self.check(["get", "a"], 0, b"blue\n")
        self.check(["cas", "a", "--from", "red", "--to", "green"], 1, b"blue\n", "differs")
        self.check(["cas", "a", "--from", "blue", "--to", "green"], 0)
        self.check(["cas", "a", "--if-missing", "--to", "green"], 1, b"green\n")
        self.check(["cas", "b", "--from", "x", "--remove"], 1, err="missing")
        self.check(["delete", "a"], 0)
        self.check(["delete", "a"], 1, err="missing")
        # (one client after another is the same one)
        self.assertEqual(len(self.store.clients), 1)
        self.assertEqual(os.listdir(self.state.name), ["crsm"])
        self.assertEqual(os.listdir(f"{self.state.name}/crsm"), ["client-0"])

    def test_bytes(self):
        self.check(["put", "a"], 0, given=b"\xff\n\0")
        self.assertEqual(self.store.rows, {b"a": b"\xff\n\0"})
        self.check(["get", "a"], 0, b"\xff\n\0\n")
        self.check(["get", "--hex", "61"], 0, b"ff0a00\n")
        self.check(["put", "--hex", "ff00"], 0, given=b"0102\n")
        self.check(["put", "--hex", "ff00", "0103"], 0)
        self.check(["put", "--", "-x", "-y"], 0)
        self.assertEqual(self.store.rows, {b"a": b"\xff\n\0", b"\xff\0": b"\1\3", b"-x": b"-y"})
        self.check(["put", "d", "1"], 1, err="full")

    def test_load(self):
        dump = b"cluster 9\nbodies 3\nepoch 0\nmembers 0,1\nreplicas 0,1\nexecuted 4\npromised 0 0\n"
        dump += b"key 61 62\nkey 63 empty\nclient 7 2 done\nkeys 2\n"
        self.check(["load", "--clients", "2"], 0, b"2 keys put, 0 there already, 0 with another value\n", given=dump)
        self.assertEqual(self.store.rows, {b"a": b"b", b"c": b""})
        self.store.rows = {b"a": b"b", b"c": b"x"}
        self.check(["load"], 1, b"0 keys put, 1 there already, 1 with another value\n", "another value: 63", given=dump)
        self.check(["load", "--replace"], 0, b"1 keys put, 1 there already, 0 with another value\n", given=dump)
        self.assertEqual(self.store.rows, {b"a": b"b", b"c": b""})
        empty = b"bodies 0\nepoch 0\nmembers 0,1\nreplicas 0,1\nexecuted 0\npromised 0 0\nkeys 0\n"
        self.check(["load"], 0, b"0 keys put, 0 there already, 0 with another value\n", given=empty)
        self.check(["load"], 1, err="full", given=b"key 61 62\nkey 62 62\nkey 63 64\nkey 64 65\nkeys 4\n")

    def test_load_of_many_keys(self):
        # (more than the numbers that eight files are reserved for at first)
        self.store.room = 5000
        dump = b"".join(b"key %08x 61\n" % at for at in range(5000)) + b"keys 5000\n"
        self.check(["load"], 0, b"5000 keys put, 0 there already, 0 with another value\n", given=dump)
        self.assertEqual((len(self.store.rows), len(self.store.clients)), (5000, 8))

    def test_load_keeps_its_number_until_its_end(self):
        # At each command of the load another process would take the next number.
        self.store.room, free = 9, []
        change = self.store.change

        def looks(operation):
            with contextlib.closing(KeptNumbers.first_free(f"{self.state.name}/crsm")) as other:
                free.append(other.path.name)
            return change(operation)

        self.store.change = looks
        put = b"3 keys put, 0 there already, 0 with another value\n"
        self.check(["load", "--clients", "1"], 0, put, given=b"key 61 62\nkey 62 62\nkey 63 62\nkeys 3\n")
        self.assertEqual(free, ["client-1"] * 6)

    def test_load_and_another_command_at_a_time(self):
        self.store.room = 1500
        dump = b"".join(b"key %08x 61\n" % at for at in range(1500)) + b"keys 1500\n"
        process = self.started("load", "--clients", "1")
        process.stdin.write(dump)
        process.stdin.close()
        process.stdin = None
        self.addCleanup(process.communicate)
        asked = 0
        while process.poll() is None:
            self.check(["get", "z"], 1, err="missing")
            asked += 1
        put = b"1500 keys put, 0 there already, 0 with another value\n"
        self.assertEqual((*process.communicate(), process.returncode), (put, b"", 0))
        # (a `get` that began before the load took a number has that of the first file)
        self.assertEqual((len(self.store.rows), len(self.store.clients), asked > 1), (1500, 2, True))

    def test_load_of_no_dump(self):
        for given, why in (
            (b"", "no line came"),
            (b"put 61 62\n", "line 1: it is none of a dump"),
            (b"\n", "line 1: it is none of a dump"),
            (b"key 61 62\nkey 6 62\n", "line 2: the key is not hexadecimal: 6"),
            (b"key 61 6g\n", "line 1: the value is not hexadecimal: 6g"),
            (b"key 61 62\r\n", "line 1: the value is not hexadecimal"),
            (b"key 6\xe9 62\n", "line 1: the key is not hexadecimal"),
            (b"key 6A 62\n", "line 1: the key has letters in upper case: 6A"),
            (b"key 61 6F\n", "line 1: the value has letters in upper case: 6F"),
            (b"key 61\n", "line 1: a key and a value stand behind"),
            (b"key 61  62\n", "line 1: a key and a value stand behind"),
            (b"key  62\n", "line 1: the key is not hexadecimal"),
            (b"key 61 \n", "line 1: the value is not hexadecimal"),
            (b"key empty 62\n", "line 1: the key is not hexadecimal"),
            (b"key %s 62\n" % (b"61" * 65), "line 1: the key has 65 bytes, and 64 at most"),
            (b"key 61 %s\n" % (b"61" * 513), "line 1: the value has 513 bytes, and 512 at most"),
            (b"key 61 62\nkey 61 62\n", "line 2: the key 61 is named twice"),
            (b"key 61 62\nkey 62 62\nkey 61 62\n", "line 3: the key 61 is named twice"),
            (b"bodies 3\nkey 61 62\nkey 60ff 62\n", "line 3: the key 60ff stands behind 61, and keys rise"),
            (b"key 61 62", "line 1: it has no end, so the dump was cut"),
            (b"key 61 62\nclient 7 2 don", "line 2: it has no end, so the dump was cut"),
            (b"key 61 62\nkeys 2\n", "line 2: it names 2 keys, and 1 stand before it"),
            (b"keys 1\n", "line 1: it names 1 keys, and 0 stand before it"),
            (b"key 61 62\nkeys 01\n", "line 2: a number stands behind the word `keys`"),
            (b"key 61 62\nkeys\n", "line 2: a number stands behind the word `keys`"),
            (b"key 61 62\nkeys 1\nkey 62 62\n", "line 3: it stands behind the number of the keys"),
            (b"keys 0\nkeys 0\n", "line 2: it stands behind the number of the keys"),
            (b"key 61 62\n", "line 1: the last line does not give the number of the keys, so the dump was cut"),
            (b"executed 3\npromised 0 0\nclient 7 2 done\nkeys 2\n", "line 4: it names 2 keys, and 0 stand before it"),
        ):
            with self.subTest(given):
                self.check(["load"], 2, err=f"crsm: {why}", given=given)
        self.check(["load", "--clients", "0"], 2, err="one client", given=b"key 61 62\nkeys 1\n")
        self.assertEqual(self.served.taken, [])

    def test_load_of_a_dump_that_was_cut(self):
        keys = b"".join(b"key %04x 62\n" % at for at in range(12)) + b"keys 12\n"
        state = b"bodies 3\nepoch 0\nmembers 0,1\nreplicas 0,1\nexecuted 4\npromised 0 0\n"
        for dump in keys, state + keys[:-8] + b"client 7 2 done\nkeys 12\n":
            for size in range(len(dump)):
                with self.assertRaises(CutDump if size else NotADump):
                    keys_of(dump[:size].splitlines(keepends=True))
            for at in range(len(lines := dump.splitlines(keepends=True))):
                if lines[at].startswith(b"key"):
                    with self.assertRaises(CutDump):
                        keys_of(lines[:at] + lines[at + 1 :])
            self.assertEqual(len(keys_of(lines)), 12)
        self.check(["load"], 2, err="line 11: it names 12 keys, and 10 stand before it", given=keys[24:])
        self.check(["load"], 2, err="line 12: the last line does not give the number of the keys", given=keys[:-8])
        self.assertEqual(self.served.taken, [])

    def test_load_of_a_dump_of_keys(self):
        self.check(
            ["load"],
            0,
            b"2 keys put, 0 there already, 0 with another value\n",
            given=b"key 61 62\nkey 6100 empty\nkeys 2\n",
        )
        self.assertEqual(self.store.rows, {b"a": b"b", b"a\0": b""})
        self.check(["load"], 0, b"0 keys put, 0 there already, 0 with another value\n", given=b"keys 0\n")

    def test_options_before_the_command_and_behind_it(self):
        host, port = self.dead().getsockname()
        dead = ["--nodes", f"{host}:{port}"]
        fast = ["--timeout", "0.3"]
        self.store.rows[b"a"] = b"1"
        self.check(["--hex", "get", "61"], 0, b"31\n")
        self.check(["--state", f"{self.state.name}/lock", "get", "--hex", "61"], 0, b"31\n")
        self.assertEqual(sorted(os.listdir(self.state.name)), ["crsm", "lock"])
        self.check([*dead, *fast, "get", "a"], 9, err="no answer")
        self.check([*dead, "get", "a", *fast], 9, err="no answer")
        # What stands behind it decides.
        self.check([*fast, "get", "a", *dead], 9, err="no answer")
        here = ":".join(map(str, self.served.address))
        self.check([*dead, *fast, "get", "a", "--nodes", here, "--timeout", "0"], 0, b"1\n")
        self.check(["--cluster", "9", "get", "a", "--cluster", "0"], 0, b"1\n")
        self.check(["--hex", "put", "--", "62", "32"], 0)
        self.assertEqual(self.store.rows[b"b"], b"2")
        self.check(["--timeout", "5", "lock", "--wait", "1", "c", "--", "echo", "--", "--hex"], 0, b"-- --hex\n")
        self.check(["--timeout", "5", "lock", "c"], 2, err="lock: the command to run stands behind --")
        self.check(["--timeout", "5", "get", "lock", "--", "x"], 2, err="unrecognized arguments")

    def test_version(self):
        self.check(["--version"], 0, f"crsm-client {__version__}\n".encode())

    def test_operate(self):
        host, port = self.dead().getsockname()
        here = f"{self.served.address[0]}:{self.served.address[1]},{host}:{port}"
        self.check(["operate", "0,1", "--nodes", here], 2, err="node 1 has not answered (--sure asks all the same)")
        why = "node 2 has no address; node 1 has not answered; of the nodes 0"
        self.check(["operate", "1,2", "--nodes", here], 2, err=why)
        self.check(["operate", "0,x", "--nodes", here], 2, err="not numbers")
        self.assertEqual([data for data in self.served.taken if data[0] == 6], [])
        self.check(["operate", "0", "--nodes", here], 0)
        sure = ["operate", "0,1", "--sure", "--timeout", "0.5", "--nodes", here]
        self.check(sure, 9, err="node 1: it has not answered")
        asked = [data for data in self.served.taken if data[0] == 6]
        self.assertEqual(asked, [b"\x06\1\0"] * 2 + [b"\x06\2\0\1"] * 2)

    def test_wrong_words(self):
        for words in (
            [],
            ["set"],
            ["get"],
            ["get", "a", "--nodes", "here"],
            ["get", "a", "--cluster", "-1"],
            ["--timeout", "-1", "get", "a"],
            ["--timeout", "soon", "get", "a"],
            ["--timeout"],
            ["get", "a", "--nodes", "[::1]:7000"],
            ["lock", "a", "--wait", "-1", "--", "true"],
            ["lock", "a", "--break", "-1", "--", "true"],
            ["get", "a", "--hex"],
            ["get", "k" * 65],
            ["cas", "a", "--to", "b"],
            ["cas", "a", "--from", "b", "--if-missing", "--to", "c"],
            ["lock", "a"],
            ["lock", "a", "true"],
            ["lock", "a", "--"],
        ):
            with self.subTest(words):
                self.check(words, 2)
        self.assertIn(b"CRSM_NODES", self.ran("--help")[1])
        self.assertEqual(self.served.taken, [])

    def test_no_answer(self):
        host, port = self.dead().getsockname()
        self.check(["get", "a", "--nodes", f"{host}:{port}", "--timeout", "0.3"], 9, err="no answer")
        host, port = self.node(refuse=[4] * 99).address
        self.check(["put", "a", "b", "--nodes", f"{host}:{port}", "--timeout", "1.5"], 9, err="congested")

    def test_faults(self):
        self.check(["get", "a", "--state", "/dev/null/x"], 7, err="cannot be kept")
        unknown = socket.gaierror(-2, "Name or service not known")
        with mock.patch("socket.gethostbyname", side_effect=unknown):
            for words in (["get", "a"], ["load"], ["bench"]):
                self.check([*words, "--nodes", "nowhere:7000"], 6, err="no such host", given=b"key 61 62\nkeys 1\n")
        self.store.rows[b"a"] = b"1"
        with open("/dev/full", "wb") as full:
            self.assertEqual(self.ran("get", "a", stdout=full)[0], 5)

    def test_lock(self):
        self.check(["lock", "a", *SHOWS_FENCE], 0, b"1\n")
        self.check(["lock", "a", *SHOWS_FENCE], 0, b"2\n")
        self.assertEqual(self.store.rows, {b"a": lock_value(0, 2, 0)})
        self.check(["lock", "a", "--", "sh", "-c", "exit 7"], 7)
        self.check(["lock", "a", "--", "sh", "-c", "kill -9 $$"], 128 + signal.SIGKILL)
        self.check(["lock", "a", "--", "/no/such/program"], 127)
        self.check(["lock", "a", "--", "/dev/null"], 126)
        self.check(["lock", "a", "--", "echo", "--", "x"], 0, b"-- x\n")
        self.assertEqual(self.store.rows, {b"a": lock_value(0, 7, 0)})

    def test_lock_that_another_holds(self):
        self.store.rows[b"a"] = lock_value(1, 3, 9)
        self.check(["lock", "a", "--wait", "0", *SHOWS_FENCE], 1, err="client 9 holds the lock with fence 3")
        self.check(["lock", "a", "--break", "2", *SHOWS_FENCE], 1, err="holds")
        self.check(["lock", "a", "--break", "3", *SHOWS_FENCE], 0, b"4\n")
        self.store.rows[b"a"] = b"1"
        self.check(["lock", "a", *SHOWS_FENCE], 1, err="a lock has 17 bytes")

    def held(self, script):
        """A process that holds the lock while this script runs, which writes a line first."""
        process = self.started("lock", "a", "--", "sh", "-c", script)
        self.addCleanup(process.communicate)
        self.addCleanup(process.kill)
        process.stdout.readline()
        return process

    def test_lock_is_lost_while_the_command_runs(self):
        process = self.held("echo; read line")
        self.store.rows[b"a"] = lock_value(1, 9, 9)
        _, said = process.communicate(b"\n")
        self.assertEqual(process.returncode, 1)
        self.assertIn(b"the lock was taken", said)

    def test_lock_is_given_back_on_a_signal(self):
        process = self.held("trap 'echo ended; exit 3' TERM; echo; while :; do sleep 0.05; done")
        process.terminate()
        out, _ = process.communicate()
        self.assertEqual((process.returncode, out), (3, b"ended\n"))
        self.assertEqual(self.store.rows, {b"a": lock_value(0, 1, 0)})

    def test_killed_holder(self):
        process = self.held("echo $$; read line")
        process.kill()
        # The command runs on: nobody else is this client, and the lock stays held.
        self.check(["lock", "a", "--wait", "0", *SHOWS_FENCE], 1, err="holds the lock with fence 1")
        self.assertEqual(sorted(os.listdir(f"{self.state.name}/crsm")), ["client-0", "client-1"])
        process.communicate(b"\n")
        # Once it has ended, the next one is the client that holds it, by a new grant.
        until = time.monotonic() + 10
        while (ended := self.ran("lock", "a", "--wait", "0", *SHOWS_FENCE))[0] == 1 and time.monotonic() < until:
            pass
        self.assertEqual(ended[:2], (0, b"2\n"))

    def test_processes_at_a_time_are_different_clients(self):
        self.store.room = 9
        processes = [self.started("put", str(at), "v") for at in range(4)]
        for process in processes:
            process.communicate()
            self.assertEqual(process.returncode, 0)
        self.assertEqual(len(self.store.rows), 4)

    def test_bench(self):
        self.store.room = 9
        status, out, _ = self.ran_here("bench", "--clients", "3", "--seconds", "0.5")
        self.assertEqual(status, 0)
        self.assertRegex(out, rb"^[0-9,]+ commands a second; median [0-9.]+ ms, 99 % within [0-9.]+ ms\n$")
        self.assertEqual((self.store.rows, len(self.store.clients)), ({}, 3))


if __name__ == "__main__":
    unittest.main()
