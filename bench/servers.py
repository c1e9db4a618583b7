#!/usr/bin/env python3
"""The server of examples/server_resp beside redis-server, by redis-benchmark.

    bench/servers.py SERVER [--seconds 60] [--size BYTES]
                            [--only compare|degraded|memory|longest|memcached]

SERVER is the built program. Prints, for values of 64 bytes, 4 KiB and 1 MiB, SET and GET: requests
a second, processor time of the server a request, and the latency at 99.9 % of the requests, each as
a ratio to redis-server's, which runs in turn on the same machine under the same load, each the
median of nine turns. The server has one thread, as redis-server has for requests, and then four.
Then, with one thread, GET with 1 to 4 fragments of each stripe lost, the resident bytes of a value
of 64 bytes, the longest request in so many seconds of SETs over 300,000 keys, and memcached's
processor time a request and bytes a value, with one thread too. --only measures one of these, and
--size compares values of one size. It needs redis-server, redis-tools, memcached and
libmemcached-tools of Debian, and a machine that does nothing else.
"""

import argparse
import contextlib
import os
import re
import shutil
import socket
import statistics
import subprocess
import tempfile
import time
from pathlib import Path

TURNS, CLIENTS, KEYS = 9, 16, 300_000
LOADS = ((64, 60_000), (4096, 40_000), (1 << 20, 600))
TICKS = os.sysconf("SC_CLK_TCK")
MEMCACHED = "memcached -p 7404 -t 1 -m 4096 -I 2m -U 0 -u nobody".split(), 7404
NEEDED = {
    "redis-server": "redis-server",
    "redis-benchmark": "redis-tools",
    "memcached": "memcached",
    "memcaslap": "libmemcached-tools",
}


@contextlib.contextmanager
def running(command, port):
    """A server that listens on a port."""
    with subprocess.Popen(command, stdout=subprocess.DEVNULL) as process:
        try:
            for _ in range(100):
                with contextlib.suppress(OSError):
                    socket.create_connection(("127.0.0.1", port)).close()
                    break
                time.sleep(0.05)
            yield process
        finally:
            process.kill()


def commands(server, width):
    redis = ["redis-server", "--port", "7401", "--save", "", "--appendonly", "no"]
    return {
        "redis": (redis, 7401),
        "1 thread": ([server, "7402", str(width), "1"], 7402),
        "4 threads": ([server, "7403", str(width), "4"], 7403),
    }


def processor_seconds(process):
    fields = Path(f"/proc/{process.pid}/stat").read_text("ascii").rpartition(")")[2].split()
    return (int(fields[11]) + int(fields[12])) / TICKS


def resident_bytes(process):
    pages = Path(f"/proc/{process.pid}/statm").read_text("ascii").split()[1]
    return int(pages) * os.sysconf("SC_PAGE_SIZE")


def load(process, port, words, count, clients=CLIENTS, keys=1000):
    """Requests a second, microseconds of the server a request, and milliseconds at 99.9 % and of
    the longest."""
    command = ["redis-benchmark", "-p", str(port), "-n", str(count), "-c", str(clients)]
    command += ["--threads", "2", "-r", str(keys), *words]
    before = processor_seconds(process)
    began = time.monotonic()
    # on standard error it says that there is no CONFIG
    printed = subprocess.check_output(command, stderr=subprocess.DEVNULL, text=True)
    took = time.monotonic() - began
    rows = re.findall(r"^([\d.]+)% <= ([\d.]+) milliseconds", printed, re.M)
    high = min(float(time) for share, time in rows if float(share) >= 99.9)
    longest = max(float(time) for _, time in rows)
    return count / took, (processor_seconds(process) - before) / count * 1e6, high, longest


def words_of(kind, size):
    return ["-t", kind.lower(), "-d", str(size)]


def width_for(size):
    """The bytes of a fragment: a small value fills a stripe, and a large one has little padding."""
    return min(8192, -(-size // 12))


def middle(rows):
    """The median of each figure of several turns."""
    return tuple(map(statistics.median, zip(*rows)))


def measured(server, size, count, kind):
    """The figures of each server, which take turns."""
    rows = {}
    clients = CLIENTS if size < 1 << 20 else 4
    with contextlib.ExitStack() as stack:
        there = {
            name: (stack.enter_context(running(command, port)), port)
            for name, (command, port) in commands(server, width_for(size)).items()
        }
        for process, port in there.values():
            load(process, port, words_of("SET", size), min(count, 20_000), clients)
        for _ in range(TURNS):
            for name, (process, port) in there.items():
                found = load(process, port, words_of(kind, size), count, clients)
                rows.setdefault(name, []).append(found)
    return {name: middle(found) for name, found in rows.items()}


def compare(server, sizes):
    for size, count in LOADS:
        if size not in sizes:
            continue
        for kind in ("SET", "GET"):
            found = measured(server, size, count, kind)
            redis = found.pop("redis")
            for name, ours in found.items():
                rate, took, high, _ = (a / b for a, b in zip(ours, redis))
                print(
                    f"{size:7} {kind}, {name:9}: {rate:4.2f} of the requests a second,"
                    f" {took:4.2f} of the processor time ({ours[1]:.1f} us),"
                    f" {high:4.2f} of the time at 99.9 % ({ours[2]:.2f} ms)",
                    flush=True,
                )


def degraded(server):
    for size, count in LOADS[:2]:
        command, port = commands(server, width_for(size))["1 thread"]
        with running(command, port) as process:
            load(process, port, words_of("SET", size), 20_000, keys=1000)
            healthy = get_time(process, port, size, count)
            for fragment in (0, 1, 6, 7):
                lose(port, fragment)
                share = get_time(process, port, size, count) / healthy
                print(f"{size:8} GET, fragment {fragment} lost too: {share:.2f} of healthy")


def get_time(process, port, size, count):
    """Microseconds of the server for a GET."""
    return middle([load(process, port, words_of("GET", size), count) for _ in range(TURNS)])[1]


def lose(port, fragment):
    """Loses a fragment of the first stripe of each key."""
    with socket.create_connection(("127.0.0.1", port)) as client, client.makefile() as replies:
        for number in range(1000):
            words = ("LOSE", f"key:{number:012}", "0", str(fragment))
            parts = "".join(f"${len(it)}\r\n{it}\r\n" for it in words)
            client.sendall(f"*{len(words)}\r\n{parts}".encode())
            replies.readline()


def memory(server):
    for name, (command, port) in commands(server, width_for(64)).items():
        with running(command, port) as process:
            before = resident_bytes(process)
            load(process, port, words_of("SET", 64), 4 * KEYS, keys=KEYS)
            size = int(ask(port, "DBSIZE"))
            print(f"{name}: {(resident_bytes(process) - before) / size:.0f} bytes a value of 64")


def load_memcached(process, kind, size, count, window=1):
    """The seconds of memcached, and the numbers of SETs and GETs. Each client first stores as many
    thousands of keys as its window."""
    share = {"SET": (1.0, 0.0), "GET": (0.0, 1.0)}[kind]
    with tempfile.NamedTemporaryFile("w", suffix=".cfg") as file:
        file.write(f"key\n16 16 1\nvalue\n{size} {size} 1\ncmd\n0 {share[0]}\n1 {share[1]}\n")
        file.flush()
        words = ["-F", file.name, "-T", "2", "-c", str(CLIENTS), "-w", f"{window}k"]
        before = processor_seconds(process)
        command = ["memcaslap", "-s", f"127.0.0.1:{MEMCACHED[1]}", *words, "-x", str(count)]
        printed = subprocess.check_output(command, text=True)
    done = [int(re.search(rf"cmd_{word}: (\d+)", printed)[1]) for word in ("set", "get")]
    return processor_seconds(process) - before, *done


def memcached():
    redis, port = commands("", 8)["redis"]
    for size, count in LOADS[:2]:
        with running(redis, port) as other, running(*MEMCACHED) as process:
            load(other, port, words_of("SET", size), count)
            took = {"SET": [], "GET": []}
            for _ in range(TURNS):
                seconds, sets, _ = load_memcached(process, "SET", size, count)
                theirs = load(other, port, words_of("SET", size), count)[1]
                took["SET"].append((seconds / sets * 1e6, theirs))
                seconds, stored, gets = load_memcached(process, "GET", size, 4 * count)
                theirs = load(other, port, words_of("GET", size), count)[1]
                rest = seconds * 1e6 - stored * middle(took["SET"])[0]
                took["GET"].append((rest / gets, theirs))
        for kind, pairs in took.items():
            ours, theirs = middle(pairs)
            share = f"{ours / theirs:4.2f} of the processor time ({ours:.1f} us)"
            print(f"{size:7} {kind}, memcached: {share}", flush=True)
    with running(*MEMCACHED) as process:
        before = resident_bytes(process)
        _, sets, _ = load_memcached(process, "SET", 64, KEYS, window=KEYS // CLIENTS // 1000)
        size = (resident_bytes(process) - before) / sets
        print(f"memcached: {size:.0f} bytes a value of 64")


def ask(port, word):
    with socket.create_connection(("127.0.0.1", port)) as client:
        client.sendall(f"*1\r\n${len(word)}\r\n{word}\r\n".encode())
        return client.recv(100).decode().strip(":\r\n")


def longest(server, seconds):
    for name, (command, port) in commands(server, width_for(64)).items():
        with running(command, port) as process:
            end, most = time.monotonic() + seconds, 0.0
            while time.monotonic() < end:
                most = max(most, load(process, port, words_of("SET", 64), 200_000, keys=KEYS)[3])
            print(f"{name}: the longest of the SETs in {seconds} s took {most:.2f} ms")


def check_programs(parser, server):
    if not os.access(server, os.X_OK):
        parser.error(f"{server} is no program; build it as examples/server_resp/README.md says")
    missing = [package for word, package in NEEDED.items() if not shutil.which(word)]
    if missing:
        parser.error(f"first `apt-get install {' '.join(missing)}`")


def main():
    parser = argparse.ArgumentParser(description=__doc__.splitlines()[0])
    parser.add_argument("server")
    parser.add_argument("--seconds", type=int, default=60)
    parser.add_argument("--only", choices=("compare", "degraded", "memory", "longest", "memcached"))
    parser.add_argument("--size", type=int, choices=[size for size, _ in LOADS])
    given = parser.parse_args()
    check_programs(parser, given.server)
    parts = {
        "compare": lambda: compare(given.server, [given.size or size for size, _ in LOADS]),
        "degraded": lambda: degraded(given.server),
        "memory": lambda: memory(given.server),
        "longest": lambda: longest(given.server, given.seconds),
        "memcached": memcached,
    }
    for name, measure in parts.items():
        if given.only in (None, name):
            measure()


if __name__ == "__main__":
    main()
