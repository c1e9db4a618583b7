"""A Swift cluster on this machine's loopback address, in a temporary folder: its settings, rings
and processes, and a client."""

import glob
import hashlib
import http.client
import json
import os
import pwd
import queue
import re
import signal
import socket
import subprocess
import threading
import time
from pathlib import Path

import harness

PYTHON = "/usr/bin/python3"  # Debian's, for which Debian's Swift is installed
DATA, PARITIES = 12, 4
FRAGMENTS = DATA + PARITIES
DEVICES, SERVERS = 20, 5
PART_POWER = 7
SECONDS = 900  # of patience with a process on a loaded machine
# The device, time, number and mark of a fragment (`#d` if it is durable) or of a deletion.
VERSION_FILE = re.compile(r"/devices/(d\d+)/.*/(\d+\.\d+(?:_\w+)?)(?:#(\d+))?(#d|(?=\.ts))?\.\w+$")
LOGS = ("proxy", "account", "container", "object", "reconstructor", "auditor")

# Swift reads /etc/swift/swift.conf when it is imported. This takes another folder's, and then runs
# the program. LRC_CLUSTER_HIDES begins the names of modules that it is not to find, although they
# are installed: it looks into links to all others.
LAUNCH = """
import os, runpy, sys
folder, sys.argv = sys.argv[1], sys.argv[2:]
hidden = os.environ.get("LRC_CLUSTER_HIDES")
for number, place in enumerate(sys.path):
    names = os.listdir(place) if hidden and os.path.isdir(place) else []
    if any(name.startswith(hidden) for name in names):
        sys.path[number] = folder + "/path" + str(number)
        os.mkdir(sys.path[number])
        for name in names:
            if not name.startswith(hidden):
                os.symlink(os.path.join(place, name), os.path.join(sys.path[number], name))
from swift.common import utils
utils.set_swift_dir(folder)
runpy.run_path(sys.argv[0], run_name="__main__")
"""

# What swift-ring-builder does, for all rings at once. Beside each ring, the devices of each
# partition are written.
RINGS = """
import ast, json, sys
from swift.common.ring import RingBuilder
folder, power, rings = ast.literal_eval(sys.argv[1])
for name, replicas, devices in rings:
    builder = RingBuilder(power, replicas, 0)
    for zone, port, device in devices:
        builder.add_dev(dict(region=1, zone=zone, ip="127.0.0.1", port=port, device=device, meta="",
                             replication_ip="127.0.0.1", replication_port=port, weight=100.0))
    builder.rebalance(seed=1)
    builder.get_ring().save(folder + "/" + name + ".ring.gz")
    parts = [builder.get_part_devices(part) for part in range(2**power)]
    with open(folder + "/" + name + ".json", "w") as file:
        json.dump([[each["device"] for each in part] for part in parts], file)
"""

PROXY = """[DEFAULT]
{common}bind_port = {port}
workers = 0
[pipeline:main]
pipeline = catch_errors gatekeeper proxy-logging cache tempauth {filters} copy slo
    dlo proxy-logging proxy-server
[app:proxy-server]
use = egg:swift#proxy
account_autocreate = true
{settings}client_timeout = {seconds}
post_quorum_timeout = {seconds}
[filter:tempauth]
use = egg:swift#tempauth
user_test_tester = testing .admin
[filter:cache]
use = egg:swift#memcache
memcache_servers = 127.0.0.1:{memcached}
connect_timeout = {seconds}
pool_timeout = {seconds}
io_timeout = {seconds}
[filter:gatekeeper]
use = egg:swift#gatekeeper
shunt_inbound_x_timestamp = false
{plain_filters}[filter:lrcstore]
use = egg:lrcstore_swift
{of_filter}"""

PLAIN_FILTERS = "".join(
    f"[filter:{name}]\nuse = egg:swift#{name.replace('-', '_')}\n"
    for name in ("catch_errors", "proxy-logging", "copy", "slo", "dlo")
)

LISTING = """[DEFAULT]
{common}bind_port = {port}
workers = 0
devices = {folder}/accounts
mount_check = false
[pipeline:main]
pipeline = {kind}-server
[app:{kind}-server]
use = egg:swift#{kind}
auto_create_account_prefix = .
"""

# A server has the devices of its port. The reconstructor and the auditor have those of all ports.
OBJECT = """[DEFAULT]
{common}{server}
workers = 0
devices = {folder}/devices
mount_check = false
[pipeline:main]
pipeline = object-server
[app:object-server]
use = egg:swift#object
set log_level = DEBUG
{patience}[object-reconstructor]
log_address = {folder}/reconstructor.log
recon_cache_path = {folder}/cache
interval = 1
{patience}http_timeout = {seconds}
[object-auditor]
log_address = {folder}/auditor.log
recon_cache_path = {folder}/cache
files_per_second = 0
bytes_per_second = 0
zero_byte_files_per_second = 0
"""


class Logs:
    """Writes into `folder`/logs what Swift's programs log. They send it to sockets, as to syslog:
    if a native thread logs, the lock of Swift's handler for consoles (`-v`) blocks for ever."""

    MARK, END = b"\0mark", b"\0end"

    def __init__(self, folder):
        self.folder, self.marks, self.sockets, self.threads = folder, {}, {}, []
        for name in LOGS:
            self.marks[name] = queue.Queue()
            self.sockets[name] = socket.socket(socket.AF_UNIX, socket.SOCK_DGRAM)
            self.sockets[name].bind(f"{folder}/{name}.log")
            self.threads.append(threading.Thread(target=self.receive, args=(name,), daemon=True))
            self.threads[-1].start()

    def receive(self, name):
        with open(f"{self.folder}/logs/{name}", "ab", buffering=0) as file:
            while (line := self.sockets[name].recv(1 << 20)) != self.END:
                if line == self.MARK:
                    self.marks[name].put(line)
                else:
                    file.write(line.rstrip(b"\0\n") + b"\n")

    def send(self, name, line):
        with socket.socket(socket.AF_UNIX, socket.SOCK_DGRAM) as sender:
            sender.sendto(line, f"{self.folder}/{name}.log")

    def settle(self, name):
        """Waits until all that was sent before is written."""
        self.send(name, self.MARK)
        self.marks[name].get(timeout=SECONDS)

    def close(self):
        for name, thread in zip(LOGS, self.threads):
            self.send(name, self.END)
            thread.join()
            self.sockets[name].close()
            os.unlink(f"{self.folder}/{name}.log")


def hash_of(path):
    """The name that Swift gives to the folder of an object `account/container/object`."""
    return hashlib.md5(f"lrc/{path}lrc".encode()).hexdigest()


class Policy:
    """A storage policy: replicated if `ec_type` is None, else in `data` and four parity
    fragments."""

    def __init__(self, index, name, ec_type, data=DATA, **settings):
        self.index, self.name, self.ec_type, self.settings = index, name, ec_type, settings
        self.data, self.fragments = data, data + PARITIES if ec_type else 1
        self.replicas = self.fragments * settings.get("ec_duplication_factor", 1)

    @property
    def ring(self):
        return f"object-{self.index}" if self.index else "object"

    def text(self):
        if self.ec_type is None:
            settings = {"policy_type": "replication", "default": "yes"}
        else:
            settings = {
                "policy_type": "erasure_coding",
                "ec_type": self.ec_type,
                "ec_num_data_fragments": self.data,
                "ec_num_parity_fragments": PARITIES,
                **self.settings,
            }
        lines = [f"[storage-policy:{self.index}]", f"name = {self.name}"]
        return "\n".join(lines + [f"{key} = {value}" for key, value in settings.items()]) + "\n"


class Cluster:
    """`environment` is added to that of every process. `filters` stand in the proxy's pipeline,
    `settings` in the section of the proxy server, and `of_filter` in that of the filter."""

    of_filter = ""

    def __init__(self, folder, policies, environment, filters=(), **settings):
        self.folder, self.policies, self.filters = folder, policies, filters
        self.settings = {"node_timeout": SECONDS, "conn_timeout": SECONDS}
        self.settings |= {"error_suppression_interval": 0, **settings}
        self.environment = dict(os.environ, **environment)
        self.processes, self.logs = {}, None
        (
            self.proxy_port,
            self.account_port,
            self.container_port,
            self.memcached_port,
            *self.object_ports,
        ) = harness.free_ports(4 + SERVERS)

    # ---- settings and rings

    def write(self, name, text):
        Path(self.folder, name).write_text(text, "utf-8")

    def prepare(self):
        """Makes the folder, with the settings and the rings."""
        os.mkdir(self.folder)
        self.configure()
        self.make_rings()

    def configure(self):
        for name in ("accounts/a0", "cache", "logs", *(f"devices/d{i}" for i in range(DEVICES))):
            os.makedirs(os.path.join(self.folder, name))
        self.write(
            "swift.conf",
            "[swift-hash]\nswift_hash_path_prefix = lrc\nswift_hash_path_suffix = lrc\n"
            + "".join(policy.text() for policy in self.policies),
        )
        user = pwd.getpwuid(os.geteuid()).pw_name
        words = {
            "folder": self.folder,
            "filters": " ".join(self.filters),
            "plain_filters": PLAIN_FILTERS,
            "of_filter": self.of_filter,
            "memcached": self.memcached_port,
            "seconds": SECONDS,
            "patience": f"node_timeout = {SECONDS}\nconn_timeout = {SECONDS}\n",
            "settings": "".join(f"{key} = {value}\n" for key, value in self.settings.items()),
        }
        common = f"bind_ip = 127.0.0.1\nuser = {user}\nswift_dir = {self.folder}\n"
        common += f"log_address = {self.folder}/{{}}.log\n"
        for kind, port, text in (
            ("proxy", self.proxy_port, PROXY),
            ("account", self.account_port, LISTING),
            ("container", self.container_port, LISTING),
        ):
            words.update(kind=kind, port=port, common=common.format(kind))
            self.write(f"{kind}.conf", text.format(**words))
        words["common"] = common.format("object")
        self.write("object.conf", OBJECT.format(server="servers_per_port = 1", **words))
        for i, port in enumerate(self.object_ports):
            self.write(f"object{i}.conf", OBJECT.format(server=f"bind_port = {port}", **words))
        self.logs = Logs(self.folder)

    def make_rings(self):
        places = [
            (i % SERVERS + 1, self.object_ports[i % SERVERS], f"d{i}") for i in range(DEVICES)
        ]
        rings = [
            ("account", 1, [(1, self.account_port, "a0")]),
            ("container", 1, [(1, self.container_port, "a0")]),
        ]
        for policy in self.policies:
            rings.append((policy.ring, policy.replicas, places))
        subprocess.run(
            [PYTHON, "-c", RINGS, repr((self.folder, PART_POWER, rings))],
            env=self.environment,
            cwd=self.folder,
            check=True,
        )

    # ---- processes

    def command(self, program, *words):
        return [PYTHON, "-c", LAUNCH, self.folder, f"/usr/bin/{program}", *words]

    def run(self, program, *words):
        """What the program prints and logs, whatever its status."""
        name = program.rsplit("-", 1)[-1]
        before = len(self.log(name)) if name in LOGS else 0
        settings = {"env": self.environment, "cwd": self.folder, "timeout": SECONDS}
        _, printed = harness.outcome_of(*self.command(program, *words), **settings)
        return printed + (self.log(name)[before:] if name in LOGS else "")

    def spawn(self, name, command, log=None):
        with open(f"{self.folder}/logs/{log or name}", "ab") as file:
            self.processes[name] = subprocess.Popen(
                command,
                env=self.environment,
                cwd=self.folder,
                stdin=subprocess.DEVNULL,
                stdout=file,
                stderr=file,
                start_new_session=True,
            )

    def count_logged(self, name, *words, start=0):
        """How many lines have all these words, of those that begin at `start` in the log."""
        lines = self.log(name)[start:].splitlines()
        return sum(all(word in line for word in words) for line in lines)

    def log(self, name):
        """What the program has printed and logged until now."""
        if self.logs and name in LOGS:
            self.logs.settle(name)
        return Path(self.folder, "logs", name).read_text("utf-8", "replace")

    def spawn_object_server(self, number):
        conf = f"{self.folder}/object{number}.conf"
        self.spawn(f"object{number}", self.command("swift-object-server", conf), "object")

    def restart_object_server(self, number):
        """Starts one that was killed, until it listens."""
        self.spawn_object_server(number)
        self.wait_for(self.object_ports[number])

    def spawn_reconstructor(self):
        """It runs again and again."""
        conf = f"{self.folder}/object.conf"
        self.spawn("reconstructor", self.command("swift-object-reconstructor", conf))

    def kill(self, name):
        """Ends a process without a chance to end its answers."""
        process = self.processes.pop(name)
        os.killpg(process.pid, signal.SIGKILL)
        process.wait()

    def kill_object_server(self, number):
        self.kill(f"object{number}")

    def signal_object_server(self, number, what):
        os.killpg(self.processes[f"object{number}"].pid, what)

    def start(self):
        words = f"-l 127.0.0.1 -p {self.memcached_port} -U 0 -u nobody -m 64"
        self.spawn("memcached", ["/usr/bin/memcached", *words.split()])
        for kind in ("account", "container", "proxy"):
            self.spawn(kind, self.command(f"swift-{kind}-server", f"{self.folder}/{kind}.conf"))
        for number in range(SERVERS):
            self.spawn_object_server(number)
        for port in (
            self.memcached_port,
            self.account_port,
            self.container_port,
            self.proxy_port,
            *self.object_ports,
        ):
            self.wait_for(port)

    def wait_for(self, port):
        end = time.monotonic() + SECONDS
        while True:
            try:
                socket.create_connection(("127.0.0.1", port), 1).close()
                return
            except OSError as error:
                ended = [
                    name for name, process in self.processes.items() if process.poll() is not None
                ]
                if ended or time.monotonic() > end:
                    logs = "\n".join(self.log(name.rstrip("0123456789"))[-2000:] for name in ended)
                    raise RuntimeError(
                        f"nothing listens on port {port}; ended: {ended}\n{logs}"
                    ) from error
                time.sleep(0.05)

    def stop(self):
        """Ends the processes that were started, by their own groups."""
        for process in self.processes.values():
            if process.poll() is None:
                os.killpg(process.pid, signal.SIGTERM)
        for process in self.processes.values():
            try:
                process.wait(10)
            except subprocess.TimeoutExpired:
                os.killpg(process.pid, signal.SIGKILL)
                process.wait()
        self.processes.clear()
        if self.logs:
            self.logs.close()
            self.logs = None

    # ---- fragments on disk

    def fragments(self, policy, path):
        """The file of each fragment of an object `account/container/object`, by its number."""
        files = glob.glob(f"{self.hash_folders(policy, path)}/*#*.data")
        return {int(re.search(r"#(\d+)(#d)?\.data$", file).group(1)): file for file in files}

    def hash_folders(self, policy, path):
        """A pattern of the folders of an object on all devices."""
        return f"{self.folder}/devices/*/objects-{policy.index}/*/*/{hash_of(path)}"

    def places(self, policy, path):
        """Where the fragments of the newest version are, each as (number, device); none if the
        object is deleted. A version counts if one of its fragments is durable."""
        files = [
            match.groups()
            for file in glob.glob(f"{self.hash_folders(policy, path)}/*")
            if (match := VERSION_FILE.search(file))
        ]
        stamps = [stamp for _, stamp, _, mark in files if mark is not None]
        newest = max(stamps, default=None)
        return {(int(i), device) for device, stamp, i, _ in files if i and stamp == newest}

    def primaries(self, policy, path):
        """Where the ring says that an object's fragments have to be, as `places` does."""
        ring = json.loads(Path(self.folder, f"{policy.ring}.json").read_text("utf-8"))
        devices = ring[int(hash_of(path)[:8], 16) >> 32 - PART_POWER]
        return {(i % policy.fragments, device) for i, device in enumerate(devices)}


class Client:
    """Swift's API over HTTP, as tempauth's user of the tests."""

    account = "AUTH_test"

    def __init__(self, port):
        self.port, self.partial = port, b""
        status, headers, _ = self.ask(
            "GET", "/auth/v1.0", {"X-Auth-User": "test:tester", "X-Auth-Key": "testing"}
        )
        if status != 200:
            raise RuntimeError(f"no token from port {port}: status {status}")
        self.token = headers["x-auth-token"]

    def ask(self, method, path, headers=(), body=None, midway=None):
        """Status, headers and body; the body is None if the connection ended before its end, and
        then `partial` is what has come of it. `midway` is called when some of it has come."""
        connection = http.client.HTTPConnection("127.0.0.1", self.port, timeout=SECONDS)
        try:
            connection.request(method, path, body, dict(headers))
            answer = connection.getresponse()
            found = {key.lower(): value for key, value in answer.getheaders()}
            try:
                first = answer.read(1 << 20) if midway else b""
                if midway:
                    midway()
                return answer.status, found, first + answer.read()
            except (http.client.IncompleteRead, ConnectionError) as error:
                self.partial = first + getattr(error, "partial", b"")
                return answer.status, found, None
        finally:
            connection.close()

    def call(self, method, path, headers=(), body=None, midway=None):
        headers = {"X-Auth-Token": self.token, **dict(headers)}
        return self.ask(method, f"/v1/{self.account}/{path}", headers, body, midway)

    def put(self, path, body):
        status, _, answer = self.call("PUT", path, {"Content-Length": str(len(body))}, body)
        if status != 201:
            raise RuntimeError(f"PUT {path}: status {status} {answer[:200]!r}")

    def get(self, path, headers=(), midway=None):
        return self.call("GET", path, headers, midway=midway)
