#!/usr/bin/python3
"""Ceph's own tests of erasure code plugins, for the plugin's profiles, against the installed Ceph.

    integrations/ceph/upstream_test.py [--corpora FOLDER]

They are built of Debian's source package, which is fetched, and removed afterwards: the test of all
plugins (20.2), the non-regression tool, and the comparison of upstream_types.cc (20.2). The
exhaustive benchmark is that of the package ceph-test. FOLDER keeps the chunks that the tool stores,
in a folder for each version, and those of other versions there are read. It runs as root in a
system whose /etc/apt/sources.list names Debian's archive, such as a root of roots.sh, and installs
what it needs. It prints `N passed, M failed`."""

import errno
import glob
import os
import re
import shutil
import sys
from pathlib import Path

sys.dont_write_bytecode = True
HERE = os.path.dirname(os.path.abspath(__file__))
sys.path[:0] = [HERE, os.path.dirname(HERE)]
import cluster_test  # noqa: E402
import harness  # noqa: E402
import source_package  # noqa: E402
import upstream_source  # noqa: E402

PACKAGES = (
    *("g++", "libradospp-dev", "ceph-base", "ceph-osd", "ceph-test", "xz-utils", "python3-yaml"),
    *("libboost-dev", "libboost-program-options-dev", "libcap-dev", "libfmt-dev", "libgtest-dev"),
)
ORDERS = "interleaved", "groups", "parities-last"
PROFILES = [[f"k={k}", "m=4", f"order={order}"] for k in (12, 6) for order in ORDERS]
WIDTHS = 1, 64, 1234, 3181, 4096, 49152, 49153, 1048576, 4000001
CORPUS = os.path.join(harness.TOP, "tests/corpus")
TESTS = "test/erasure-code"
REFUSED = 256 - errno.EIO  # the status of a tool whose result is an error of Linux


class Programs:
    """Ceph's programs, which look for plugins in a folder with ours."""

    def __init__(self, folder, plugins, source):
        self.folder, self.plugins, self.source = folder, plugins, source
        self.settings = f"{folder}/ceph.conf"
        text = f"[global]\nerasure code dir = {plugins}\nlog file = /dev/null\n"
        Path(self.settings).write_text(text, "utf-8")

    def build(self, path, name, *words):
        return upstream_source.build(self.source, path, f"{self.folder}/{name}", *words)

    def status(self, *words):
        """The status, and what was printed."""
        settings = {"CEPH_CONF": self.settings, "CEPH_ARGS": f"--erasure_code_dir={self.plugins}"}
        return harness.outcome_of(*words, env={**os.environ, **settings})


def last_lines(text, count=4):
    return " / ".join(text.strip().splitlines()[-count:])


# ---- types and the test of all plugins, which Ceph 20.2 has


def check_types(report, programs):
    target = f"{programs.folder}/types"
    flags = upstream_source.compile_flags(programs.source)
    words = [*flags, "-O0", "-fno-access-control", f"{HERE}/upstream_types.cc", "-o", target]
    source_package.run("g++", *words, *upstream_source.LIBRARIES)
    status, printed = programs.status(target)
    report.check("types and tables are those of Ceph's headers", status == 0, last_lines(printed))


def with_profiles(text):
    """The test's source with our profiles, and one of isa, in place of its own."""
    profiles = [" ".join(["plugin=azure_lrc", *words]) for words in PROFILES]
    profiles += ["plugin=azure_lrc", "plugin=isa technique=reed_sol_van k=12 m=4"]
    listed = ",\n".join(f'"{profile}"' for profile in profiles)
    head, _, _ = text.partition("INSTANTIATE_TEST_SUITE_P(")
    values = f"::testing::Values({listed})"
    return f"{head}INSTANTIATE_TEST_SUITE_P(PluginTests, PluginTest, {values});\n"


def check_plugins(report, programs):
    text = Path(programs.source, TESTS, "TestErasureCodePlugins.cc").read_text("utf-8")
    path = f"{programs.folder}/plugins.cc"
    Path(path).write_text(with_profiles(text), "utf-8")
    unit = f"{programs.source}/test/unit.cc"
    status, printed = programs.status(programs.build(path, "all_plugins", unit, "-lgtest"))
    counts = {
        word: sum(map(int, re.findall(rf"(?m)^\[ +{word} +\] (\d+) tests?\b", printed)))
        for word in ("PASSED", "SKIPPED", "FAILED")
    }
    good = status == 0 and counts["PASSED"] > 0 and not counts["FAILED"]
    detail = ", ".join(f"{count} {word.lower()}" for word, count in counts.items())
    report.check("the test of all plugins", good, detail)
    for line in sorted(set(re.findall(r"(?m)^\[ +FAILED +\] \S+,.*", printed))):
        report.note(line)


# ---- stored chunks


def check_stored_objects(report, programs, tool, base, name, objects, *actions):
    """Runs the tool for objects in a folder, each as its width and the words of its profile."""
    wrong = []
    for width, words in objects:
        parameters = [word for each in words for word in ("--parameter", each)]
        where = ["--base", base, "--stripe-width", str(width)]
        command = [tool, "--plugin", "azure_lrc", *parameters, *where, *actions]
        status, printed = programs.status(*command)
        if status:
            wrong.append(f"{words} {width}: {last_lines(printed)}")
    text = "; ".join(wrong[:3])
    report.check(f"non-regression: {len(objects)} objects {name}", objects and not wrong, text)


def objects_in(base):
    """The objects that are stored in a folder, in the tool's form."""
    for path in sorted(glob.glob(f"{base}/plugin=azure_lrc *")):
        _, width, *words = os.path.basename(path).split(" ")
        yield width.split("=")[1], words


def lay_out_corpus(base):
    """Copies the chunks of tests/corpus into the tool's form: a file for the object, and one for
    each chunk."""
    content = Path(CORPUS, "object").read_bytes()
    for words in PROFILES:
        k, order = int(words[0].split("=")[1]), words[2].split("=")[1]
        path = f"{CORPUS}/ceph_{k}_4" + ("" if order == "groups" else f"_{order}")
        if not os.path.exists(path):
            continue
        chunks = Path(path).read_bytes()
        folder = f"{base}/plugin=azure_lrc stripe-width={len(content)} {' '.join(words)}"
        os.makedirs(folder)
        length = len(chunks) // (k + 4)
        files = {str(at): chunks[at * length : (at + 1) * length] for at in range(k + 4)}
        for name, data in {"content": content, **files}.items():
            Path(folder, name).write_bytes(data)


def check_stored(report, programs, corpora):
    tool = programs.build(
        f"{programs.source}/{TESTS}/ceph_erasure_code_non_regression.cc", "non_regression"
    )
    own = f"{corpora}/{upstream_source.version()}"
    shutil.rmtree(own, ignore_errors=True)
    os.makedirs(own)
    new = [(width, words) for words in PROFILES for width in WIDTHS]
    words = own, "are stored and read", new, "--create", "--check"
    check_stored_objects(report, programs, tool, *words)
    lay_out_corpus(f"{programs.folder}/corpus")
    folders = {"tests/corpus": f"{programs.folder}/corpus"}
    for other in sorted(set(os.listdir(corpora)) - {os.path.basename(own)}):
        folders[f"Ceph {other}"] = f"{corpora}/{other}"
    for name, base in folders.items():
        words = base, f"of {name} are read", list(objects_in(base)), "--check"
        check_stored_objects(report, programs, tool, *words)


# ---- the exhaustive benchmark, which compares the contents of all chunks


def check_exhaustive(report, programs):
    for words in PROFILES:
        parameters = [word for each in words for word in ("-P", each)]
        statuses = []
        for lost in range(1, 5):
            work = ["-w", "decode", "-i", "1", "-s", "49153", "-e", str(lost), "-E", "exhaustive"]
            tool = "ceph_erasure_code_benchmark"
            status, printed = programs.status(tool, "-p", "azure_lrc", *parameters, *work)
            statuses.append(status)
        name = f"{' '.join(words)}: all sets of 1, 2 and 3 are decoded, and one of 4 is refused"
        good = statuses == [0, 0, 0, REFUSED] and "different" not in printed
        report.check(name, good, f"{statuses}, {last_lines(printed, 1)}")


def work(report, folder, options):
    version = upstream_source.version()
    report.note(f"Ceph {version}, of the package {source_package.version_of('ceph-base')}")
    plugins = cluster_test.build(folder)
    archive = source_package.fetch(folder, "ceph", "ceph-base")
    source = upstream_source.unpack(archive, folder)
    upstream_source.configure(source)
    programs = Programs(folder, plugins, source)
    if version.startswith("20."):
        check_types(report, programs)
        check_plugins(report, programs)
    check_stored(report, programs, options.corpora or f"{folder}/corpora")
    check_exhaustive(report, programs)


if __name__ == "__main__":
    arguments = harness.parser_of(__doc__)
    arguments.add_argument("--corpora", metavar="FOLDER", help="keep what is stored there")
    sys.exit(harness.run(arguments, PACKAGES, work))
