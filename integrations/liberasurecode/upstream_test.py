#!/usr/bin/python3
"""liberasurecode's own test program, for the backend with 12 and with 6 data fragments.

    integrations/liberasurecode/upstream_test.py

It is built of Debian's source package, which is fetched, and removed afterwards. It runs as root in
a system whose /etc/apt/sources.list names Debian's archive, such as a root of roots.sh, installs
what it needs, and prints `N passed, M failed`."""

import os
import re
import subprocess
import sys
from pathlib import Path

sys.dont_write_bytecode = True
HERE = os.path.dirname(os.path.abspath(__file__))
sys.path[:0] = [os.path.dirname(HERE)]
import harness  # noqa: E402
import source_package  # noqa: E402

PACKAGES = ("gcc", "liberasurecode-dev", "libisal2", "xz-utils", "zlib1g-dev")
ARGUMENTS = re.compile(r"struct ec_args libphazr_args = \{.*?\};", re.S)


def build(folder, source, k):
    """The program with our numbers of fragments. `hd` says that any three may be lost."""
    text = Path(source, "test/liberasurecode_test.c").read_text("utf-8")
    ours = f"struct ec_args libphazr_args = {{ .k = {k}, .m = 4, .hd = 4 }};"
    text, count = ARGUMENTS.subn(ours, text)
    assert count == 1
    Path(folder, "test.c").write_text(text, "utf-8")
    headers = ["-I/usr/include/liberasurecode", f"-I{source}/include"]
    libraries = ["-lerasurecode", "-lz", "-ldl"]
    words = ["-std=gnu11", "-w", "-O1", *headers, f"{folder}/test.c", "-o", f"{folder}/test"]
    source_package.run("gcc", *words, *libraries)
    return f"{folder}/test"


def check(report, folder, source, k):
    program = build(folder, source, k)
    settings = {**os.environ, "LD_LIBRARY_PATH": folder}
    status, printed = harness.outcome_of(program, env=settings)
    of_ours = re.findall(r"(?m)^\d+ - \w+: libphazr .*$", printed)
    passed = sum(line.endswith("ok") for line in of_ours)
    good = status == 0 and passed and passed == len(of_ours)
    lines = "" if good else f", status {status}: {printed[-300:]}"
    text = f"{passed} of {len(of_ours)} of the backend's"
    report.check(f"liberasurecode's own tests, k={k}", good, text + lines)


def work(report, folder, options):
    harness.coder_folder()
    subprocess.run([f"{HERE}/build.sh", folder], check=True)
    report.note(source_package.version_of("liberasurecode1"))
    archive = source_package.fetch(folder, "liberasurecode", "liberasurecode1")
    source = f"{folder}/source"
    os.mkdir(source)
    source_package.run("tar", "-xf", archive, "-C", source, "--strip-components=1")
    for k in (12, 6):
        check(report, folder, source, k)


if __name__ == "__main__":
    sys.exit(harness.run(harness.parser_of(__doc__), PACKAGES, work))
