#!/usr/bin/env python3
"""examples/server_resp: resp_server.py PROGRAM. If LRC_COUNTED is set, its library is that of
tests/store/counted.sh, and each server has to end without a block of memory."""

import os
import random
import resource
import socket
import struct
import subprocess
import sys
import threading
import time
import unittest

COUNTED = "LRC_COUNTED" in os.environ
if COUNTED:
    import counted
PROGRAM = sys.argv.pop(1)
PATIENCE = 60  # seconds that no step takes
os.environ["ASAN_OPTIONS"] = "quarantine_size_mb=1"  # else freed memory counts as in use


def bytes_of(length, seed=0):
    return bytes((7 * i + i // 251 + seed) % 256 for i in range(length))


def encoded(*words):
    """A command of the protocol."""
    parts = [word if isinstance(word, bytes) else str(word).encode() for word in words]
    return b"*%d\r\n" % len(parts) + b"".join(b"$%d\r\n%s\r\n" % (len(it), it) for it in parts)


def processor_seconds(process):
    with open(f"/proc/{process.pid}/stat", encoding="ascii") as numbers:
        return sum(map(int, numbers.read().split()[13:15])) / os.sysconf("SC_CLK_TCK")


class Client:
    def __init__(self, port):
        self.socket = socket.create_connection(("127.0.0.1", port), PATIENCE)
        self.file = self.socket.makefile("rb")

    def close(self):
        self.file.close()
        self.socket.close()

    def reply(self):
        """A reply: bytes, None, an int, a list, or an Exception."""
        line = self.file.readline()
        kind, text = line[:1], line[1:-2]
        if kind == b"$":
            return None if text == b"-1" else self.file.read(int(text) + 2)[:-2]
        if kind == b"*":
            return [self.reply() for _ in range(int(text))]
        if kind == b":":
            return int(text)
        return ValueError(text.decode()) if kind == b"-" else text

    def ask(self, *words):
        self.socket.sendall(encoded(*words))
        return self.reply()


class Server(unittest.TestCase):
    WORDS = ()

    def setUp(self):
        command = [PROGRAM, "0", "16", *self.WORDS]
        self.process = subprocess.Popen(command, stdout=subprocess.PIPE, text=True)
        self.port = int(self.process.stdout.readline())
        self.client = Client(self.port)

    def tearDown(self):
        """The server ends with its connections open, and one in mid-transfer. A sanitizer then
        tells what leaked, or the library how much memory it has."""
        self.assertIsNone(self.process.poll(), "the server ended")
        sender, value = Client(self.port), bytes_of(150_000)
        sender.ask("SET", "sent", value)
        sender.socket.sendall(encoded("SET", "sent", value)[:100_000])
        self.assertEqual(self.client.ask("STRLEN", "sent"), len(value))
        self.process.terminate()
        self.assertEqual(self.process.wait(PATIENCE), 0)
        sender.close()
        if COUNTED:
            self.assertEqual(counted.blocks(), 0, "blocks of memory are left")
        self.assertEqual(self.client.file.read(), b"")
        self.client.close()
        self.process.stdout.close()

    def resident(self):
        """The server's memory in use, in mebibytes."""
        with open(f"/proc/{self.process.pid}/statm", encoding="ascii") as numbers:
            return int(numbers.read().split()[1]) // 256

    def processor_seconds(self):
        return processor_seconds(self.process)

    def refused(self, text, *words):
        reply = self.client.ask(*words)
        self.assertIsInstance(reply, ValueError)
        self.assertIn(text, str(reply))

    def test_values_come_back(self):
        ask = self.client.ask
        for key in (b"a", b"key:000000000001", b"", b"\0\xff\r\n", bytes_of(5000)):
            self.assertIsNone(ask("GET", key))
            self.assertEqual(ask("EXISTS", key), 0)
            for length in (0, 1, 191, 192, 193, 100_000):
                value = bytes_of(length, len(key))
                self.assertEqual(ask("SET", key, value), b"OK")
                self.assertEqual(ask("GET", key), value)
                self.assertEqual(ask("STRLEN", key), length)
                self.assertEqual(ask("EXISTS", key), 1)
            self.assertEqual(ask("DEL", key), 1)
            self.assertEqual(ask("DEL", key), 0)
            self.assertEqual((ask("STRLEN", key), ask("GET", key)), (0, None))

    def test_keys_that_differ_a_little(self):
        """Keys are bytes: letters of either case differ, and so do spaces and zeros at the end."""
        ask, keys = self.client.ask, (b"key", b"Key", b"KEY", b"key ", b"key\0", b" key", b"\xebey")
        for number, key in enumerate(keys):
            self.assertEqual(ask("SET", key, number), b"OK")
        self.assertEqual(ask("DBSIZE"), len(keys))
        self.assertEqual(ask("DEL", b"kEy"), 0)
        self.assertEqual(ask("DEL", b"Key"), 1)
        found = [ask("GET", key) for key in keys]
        self.assertEqual(found, [b"0", None, b"2", b"3", b"4", b"5", b"6"])
        self.assertEqual([ask("EXISTS", key) for key in keys], [1, 0, 1, 1, 1, 1, 1])

    def test_other_commands(self):
        ask = self.client.ask
        self.assertEqual(ask("PING"), b"PONG")
        self.assertEqual(ask("ping"), b"PONG")
        self.assertEqual(ask("ECHO", b"a\r\nb"), b"a\r\nb")
        self.assertEqual(ask("COMMAND", "DOCS"), [])
        self.assertEqual(ask("CONFIG", "GET", "save"), [])
        self.assertEqual(ask("DBSIZE"), 0)
        for word in ("NONE", "GETS", "SE"):
            self.refused("unknown command", word, "a", "b")
        self.assertEqual(ask("PING", b"a\r\nb"), b"a\r\nb")
        self.assertEqual((ask("COMMAND"), ask("INFO")[:10]), ([], b"# lrcstore"))
        for words in (("CONFIG", "SET", "save", ""), ("COMMAND", "COUNT")):
            self.refused("unknown command", *words)
        other = Client(self.port)
        self.assertEqual((other.ask("QUIT"), other.file.read()), (b"OK", b""))
        other.close()

    def test_what_it_does_not_do_is_refused(self):
        """An option, or a further key, is not ignored: the command would mean something else."""
        ask = self.client.ask
        ask("SET", "a", "1")
        ask("SET", "b", "2")
        for words in (
            ("GET",),
            ("GET", "a", "b"),
            ("SET", "a"),
            ("SET", "a", "3", "NX"),
            ("SET", "none", "3", "XX"),
            ("SET", "a", "3", "GET"),
            ("SET", "a", "3", "EX", "1"),
            ("DEL", "a", "b"),
            ("EXISTS", "a", "a"),
            ("STRLEN", "a", "b"),
            ("LOSE", "a", "0"),
            ("LOSE", "a", "0", "0", "0"),
            ("MEND", "a"),
            ("DBSIZE", "a"),
            ("INFO", "memory"),
            ("CONFIG", "GET"),
            ("ECHO",),
        ):
            self.refused("wrong number of words", *words)
        for words in (("x", "0"), ("-1", "0"), ("0", str(2**64)), ("", "0"), ("0", "0x1")):
            self.refused("no number", "LOSE", "a", *words)
        self.refused("no such stripe", "LOSE", "a", 2**64 - 1, 0)
        self.assertEqual((ask("GET", "a"), ask("GET", "b"), ask("DBSIZE")), (b"1", b"2", 2))
        self.assertIn("lost_fragments:0\r\n", ask("INFO").decode())

    def test_fragments_fail(self):
        ask, value = self.client.ask, bytes_of(1000)
        self.refused("has no blob", "LOSE", "a", 0, 0)
        ask("SET", "a", value)
        for stripe, fragment in ((0, 0), (0, 13), (5, 15)):
            self.assertEqual(ask("LOSE", "a", stripe, fragment), b"OK")
        self.refused("lost before", "LOSE", "a", 0, 13)
        self.assertEqual(ask("GET", "a"), value)
        text = ask("INFO").decode()
        self.assertIn("lost_fragments:3\r\n", text)
        self.assertIn("bytes:1000\r\n", text)
        self.assertEqual((ask("MEND"), ask("MEND"), ask("DBSIZE")), (3, 0, 1))
        for fragment in range(2, 6):
            ask("LOSE", "a", 1, fragment)
        self.refused("remaining fragments", "GET", "a")
        self.assertEqual(ask("EXISTS", "a"), 1)
        self.assertIn("unrecoverable_stripes:1\r\n", ask("INFO").decode())

    def test_commands_in_parts_and_in_a_row(self):
        all_of_them = b"".join(encoded("SET", f"k{i}", bytes_of(i)) for i in range(300))
        for byte in all_of_them[:60]:
            self.client.socket.sendall(bytes([byte]))
        self.client.socket.sendall(all_of_them[60:])
        self.assertEqual([self.client.reply() for _ in range(300)], [b"OK"] * 300)
        self.client.socket.sendall(b"".join(encoded("GET", f"k{i}") for i in range(300)))
        found = [self.client.reply() for _ in range(300)]
        self.assertEqual(found, [bytes_of(i) for i in range(300)])

    def test_large_values_on_their_way(self):
        ask, send, other = self.client.ask, self.client.socket.sendall, Client(self.port)
        for length in (65_535, 65_536, 65_537, 400_000):
            command = encoded("SET", "a", bytes_of(length))
            for cut in (10, 40, length // 2, length, -3, -2, -1):
                ask("DEL", "a")
                send(command[:cut])
                self.assertEqual(other.ask("EXISTS", "a"), 0)
                send(command[cut:] + encoded("GET", "a") + encoded("PING"))
                replies = [self.client.reply() for _ in range(3)]
                self.assertEqual(replies, [b"OK", bytes_of(length), b"PONG"], (length, cut))
        send(encoded("SET", "a", bytes_of(800_000)) + encoded("PING"))
        self.assertIn("more than 4,096 stripes", str(self.client.reply()))
        self.assertEqual(self.client.reply(), b"PONG")
        self.assertEqual(ask("GET", "a"), bytes_of(400_000))
        other.socket.sendall(encoded("SET", "b", bytes_of(200_000))[:100_000])
        other.close()
        self.refused("wrong number of words", "SET", "c", bytes_of(100_000), "EX", 10)
        self.assertEqual((ask("EXISTS", "b"), ask("EXISTS", "c")), (0, 0))

    def test_nonsense_ends_the_connection(self):
        for text in (
            b"PING\r\n",
            b"*0\r\n",
            b"*9\r\n",
            b"*1\r\n+PING\r\n",
            b"*1\r\n$x\r\n",
            b"*1\r\n$99999999999999999999\r\n",
            b"*3\r\n$3\r\nSET\r\n$1\r\na\r\n$67108865\r\n",
            b"*3\r\n$3\r\nSET\r\n$1\r\na\r\n$536870913\r\nabc",
            b"*3\r\n$3\r\nSET\r\n$1\r\na\r\n$-1\r\n",
            b"*\r\n",
            b"*1\n$4\r\nPING\r\n",
            b"*1\r\n$4\nPING\r\n",
            b"*1\rx\n$4\r\nPING\r\n",
            b"*1x\n$4\r\nPING\r\n",
            b"*1\r\n$4\r\nPINGxx",
            b"*1\r\n$4\r\nPING\rx",
            encoded("SET", "a", bytes_of(100_000))[:-2] + b"xx",
            b"*" + b"1" * 40,
        ):
            client = Client(self.port)
            client.socket.sendall(text)
            self.assertIn("protocol", str(client.reply()), text)
            self.assertEqual(client.file.read(), b"")
            client.close()
        self.assertEqual(self.client.ask("PING"), b"PONG")
        # a large value whose line end comes later, and is another one
        client = Client(self.port)
        command = encoded("SET", "a", bytes_of(100_000))
        client.socket.sendall(command[:50_000])
        time.sleep(0.05)
        client.socket.sendall(command[50_000:-2] + b"\rx")
        self.assertIn("protocol", str(client.reply()))
        self.assertEqual((client.file.read(), self.client.ask("EXISTS", "a")), (b"", 0))
        client.close()

    def test_replies_wait_for_a_client_that_does_not_read(self):
        value, replies = bytes_of(500_000), 400
        self.client.ask("SET", "a", value)
        before, slow = self.resident(), Client(self.port)
        slow.socket.sendall(encoded("GET", "a") * replies + encoded("PING"))
        time.sleep(0.5)
        self.assertEqual(self.client.ask("PING"), b"PONG")
        self.assertLess(self.resident(), before + 50)
        spent = self.processor_seconds()
        time.sleep(0.5)
        self.assertLess(self.processor_seconds() - spent, 0.2)
        slow.socket.shutdown(socket.SHUT_WR)
        for _ in range(replies):
            self.assertEqual(slow.reply(), value)
        self.assertEqual((slow.reply(), slow.file.read()), (b"PONG", b""))
        slow.close()

    def test_idle_clients_keep_little(self):
        value, clients = bytes_of(700_000), [Client(self.port) for _ in range(80)]
        self.client.ask("SET", "a", value)
        before = self.resident()
        for client in clients:
            self.assertEqual(client.ask("GET", "a"), value)
            self.assertEqual(client.ask("ECHO", value), value)
        self.assertLess(self.resident(), before + 30)
        for client in clients:
            client.close()

    def test_clients_that_hang_up(self):
        value = bytes_of(700_000)
        self.client.ask("SET", "a", value)
        for sent in (encoded("GET", "a") * 20, encoded("SET", "b", value)[:300_000], b"*2\r\n$3"):
            for is_reset in (False, True):
                client = Client(self.port)
                client.socket.sendall(sent)
                time.sleep(0.05)
                if is_reset:
                    client.socket.setsockopt(
                        socket.SOL_SOCKET, socket.SO_LINGER, struct.pack("ii", 1, 0)
                    )
                client.close()
        time.sleep(0.2)
        spent = self.processor_seconds()
        time.sleep(0.5)
        self.assertLess(self.processor_seconds() - spent, 0.2)
        self.assertEqual((self.client.ask("EXISTS", "b"), self.client.ask("PING")), (0, b"PONG"))
        folder = f"/proc/{self.process.pid}/fd"
        files = [os.readlink(f"{folder}/{it}") for it in os.listdir(folder)]
        self.assertEqual(sum("socket" in it for it in files), 2)

    def test_many_clients(self):
        wrong = []

        def work(seed):
            client, values, chance = Client(self.port), {}, random.Random(seed)
            for _ in range(200):
                key = f"{seed}:{chance.randrange(10)}"
                if chance.random() < 0.4:
                    values[key] = bytes_of(chance.randrange(3000), seed)
                    client.ask("SET", key, values[key])
                elif chance.random() < 0.2:
                    client.ask("LOSE", key, 0, chance.randrange(16))
                    client.ask("MEND")
                elif client.ask("GET", key) != values.get(key):
                    wrong.append(key)
            client.close()

        threads = [threading.Thread(target=work, args=(seed,)) for seed in range(80)]
        for thread in threads:
            thread.start()
        for thread in threads:
            thread.join()
        self.assertEqual(wrong, [])


class OneThread(Server):
    """The same tests with one thread for all connections."""

    WORDS = ("1",)

    def test_a_client_that_does_not_read_holds_up_no_other(self):
        value, replies = bytes_of(700_000), 40
        self.assertEqual(self.client.ask("SET", "a", value), b"OK")
        slow = Client(self.port)
        slow.socket.sendall(encoded("GET", "a") * replies + encoded("QUIT"))
        for _ in range(50):
            self.assertEqual(self.client.ask("PING"), b"PONG")
        for _ in range(replies):
            self.assertEqual(slow.reply(), value)
        self.assertEqual((slow.reply(), slow.file.read()), (b"OK", b""))
        slow.close()


class FewFiles(unittest.TestCase):
    def test_clients_beyond_the_limit_of_files_wait(self):
        def limit():
            resource.setrlimit(resource.RLIMIT_NOFILE, (40, 40))

        command = [PROGRAM, "0", "16", "2"]
        with subprocess.Popen(command, stdout=subprocess.PIPE, preexec_fn=limit) as process:
            port = int(process.stdout.readline())
            clients = [Client(port) for _ in range(60)]
            time.sleep(0.3)
            spent = processor_seconds(process)
            time.sleep(1)
            self.assertLess(processor_seconds(process) - spent, 0.3)
            for client in clients:  # each is served once another one has gone
                self.assertEqual(client.ask("PING"), b"PONG")
                client.close()
            process.terminate()
            self.assertEqual(process.wait(PATIENCE), 0)


class Words(unittest.TestCase):
    def test_usage(self):
        wrong = [["x", "16"], ["-1", "16"], ["65536", "16"], ["0", "16a"], ["0", ""], ["0", "-1"]]
        wrong += [["0", "4294967312"], ["0", "16", "1x"]]
        wrong += [[], ["0"], ["0", "16", "0"], ["0", "16", "33"], ["0", "16", "1", "1"]]
        for words in wrong:
            ran = subprocess.run([PROGRAM, *words], stderr=subprocess.PIPE, text=True)
            self.assertEqual((ran.returncode, ran.stderr[:6]), (2, "usage:"))
        ran = subprocess.run([PROGRAM, "0", "0"], stderr=subprocess.PIPE, text=True)
        self.assertEqual((ran.returncode, ran.stderr[:8]), (1, "server: "))


if __name__ == "__main__":
    unittest.main()
