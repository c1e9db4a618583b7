"""What the cluster tests share: packages, ports, storms, the coder, a report and a folder."""

import argparse
import collections
import contextlib
import os
import shutil
import signal
import socket
import subprocess
import sys
import tempfile
import threading
import time
import traceback

TOP = os.path.dirname(os.path.dirname(os.path.abspath(__file__)))


class Report:
    """Counts checks, and prints each as it is made."""

    def __init__(self):
        self.passed = self.failed = 0
        self.started = time.monotonic()

    def check(self, name, good, detail=""):
        if good:
            self.passed += 1
        else:
            self.failed += 1
        self.note(f"{'ok    ' if good else 'FAILED'} {name}{': ' if detail else ''}{detail}")
        return good

    def note(self, text):
        print(f"[{time.monotonic() - self.started:3.0f} s] {text}", flush=True)


def outcome_of(*words, **options):
    """The status of a command, and what it printed, also as errors."""
    options |= {"stdin": subprocess.DEVNULL, "stdout": subprocess.PIPE, "stderr": subprocess.STDOUT}
    done = subprocess.run(words, text=True, errors="replace", check=False, **options)
    return done.returncode, done.stdout


def is_installed(package):
    return "ok installed" in outcome_of("dpkg-query", "-W", "-f", "${Status}", package)[1]


def install(packages):
    """Installs those of Debian's packages that are missing. No service is started."""
    missing = [package for package in packages if not is_installed(package)]
    if not missing:
        return
    print("installing", *missing, flush=True)
    environment = dict(os.environ, DEBIAN_FRONTEND="noninteractive", RUNLEVEL="1")
    quiet = {"env": environment, "stdout": subprocess.DEVNULL}
    words = ["apt-get", "-o", "DPkg::Lock::Timeout=300", "install", "-y", "--no-install-recommends"]
    if subprocess.run([*words, *missing], check=False, **quiet).returncode:
        subprocess.run(["apt-get", "update"], check=True, **quiet)
        subprocess.run([*words, *missing], check=True, **quiet)


def has_program(program, package, note):
    """Whether there is a program, after its package was installed. Notes it if there is none."""
    install([package])
    found = shutil.which(program)
    if not found:
        note(f"skipped: there is no {program}")
    return bool(found)


def free_ports(count):
    """Ports of 127.0.0.1 that nothing listens on, all of them different."""
    with contextlib.ExitStack() as stack:
        sockets = [stack.enter_context(socket.socket()) for _ in range(count)]
        for each in sockets:
            each.bind(("127.0.0.1", 0))
        return [each.getsockname()[1] for each in sockets]


class Caller(threading.Thread):
    """Calls `step` again and again until it is stopped, and keeps what was wrong."""

    def __init__(self):
        super().__init__()
        self.stopped = threading.Event()
        self.calls, self.wrong = 0, []

    def run(self):
        while not self.stopped.is_set():
            try:
                self.step()
            except Exception:
                self.wrong.append(traceback.format_exc(limit=-2))
            self.calls += 1


def storm(callers, seconds, disturb):
    """Calls `disturb` for so many seconds while the callers call. How often it returned what."""
    events, end = collections.Counter(), time.monotonic() + seconds
    for caller in callers:
        caller.start()
    try:
        while time.monotonic() < end:
            events[disturb()] += 1
    finally:
        for caller in callers:
            caller.stopped.set()
        for caller in callers:
            caller.join()
    return events


def coder_folder():
    """The folder of the coder for C, for the build scripts too. Without a coder there, it is proved
    and built."""
    folder = os.environ.setdefault("LRC_LIBRARIES", f"{TOP}/built")
    if not os.path.exists(f"{folder}/liblrc_coder.a"):
        print("building the coder, which takes some minutes", flush=True)
        subprocess.run(
            [f"{TOP}/tools/libraries.py", "--to", folder, "lrc_coder"],
            stdout=subprocess.DEVNULL,
            check=True,
        )
    return folder


def remove(folder):
    """Removes the folder, also while a process that was killed still removes its files there."""
    for _ in range(20):
        shutil.rmtree(folder, ignore_errors=True)
        if not os.path.exists(folder):
            return
        time.sleep(0.25)
    print("not removed:", folder)


def parser_of(description):
    """A parser of a program's arguments. All programs can keep the temporary folder."""
    parser = argparse.ArgumentParser(
        description=description, formatter_class=argparse.RawDescriptionHelpFormatter
    )
    parser.add_argument("--keep", action="store_true", help="keep the folder, with the logs")
    return parser


def run(parser, packages, work):
    """Calls work(report, folder, options) with a temporary folder, and prints the count of checks.
    Returns the status of the program."""
    options = parser.parse_args()
    signal.signal(signal.SIGTERM, lambda *_: sys.exit(1))  # so that all processes are ended
    install(packages)
    report, folder = Report(), tempfile.mkdtemp(prefix="lrc_cluster_")
    try:
        work(report, folder, options)
    except Exception as error:
        traceback.print_exc(file=sys.stdout)
        report.check("the tests run to their end", False, f"{type(error).__name__}: {error}")
    finally:
        if options.keep:
            print("kept:", folder)
        else:
            remove(folder)
    print(f"{report.passed} passed, {report.failed} failed")
    return 1 if report.failed else 0
