#!/usr/bin/env python3
"""The modules of tools/package.py and tools/verify_release.py, without the prover and without
packages of Debian. LRC_LIBRARIES names the folder of the libraries."""

import contextlib
import hashlib
import importlib.util
import io
import os
import re
import shutil
import subprocess
import sys
import tarfile
import tempfile
import unittest
import venv
import zipfile
from unittest import mock

TOP = os.path.dirname(os.path.dirname(os.path.dirname(os.path.abspath(__file__))))
sys.path.insert(0, os.path.join(TOP, "tools"))

import libraries  # noqa: E402
import package  # noqa: E402
import python_extension  # noqa: E402
from packages import (  # noqa: E402
    assembly,
    building,
    comparing,
    crates,
    debian,
    licence,
    manual,
    packing,
    plugins,
    record,
    reproducible,
    wheel,
)

LINKED = os.environ["LRC_LIBRARIES"]
WHEN = 1_700_000_001
OPTIONS = ("width", "workers", "limit", "history", "help", "version")
# The definitions of the options of `lrc`.
LRC_LINE = os.path.join("crates", "lrc_line", "src", "command.rt")
LOG = """== gf256
fn gf256::inv: proved
logic=proved functions=10 sum=1
rt: gf256 proved
rt: gf256: trying its must-fail edits (5)
== kernels: its tests
logic=proved tests=1 functions=21 sum=1
== kernels
statements core: modules loaded=325 checked=0
logic=proved functions=46 sum=1
rt: lrc_code is kept: an earlier run on this machine proved the same files
"""


class Words(unittest.TestCase):
    """What tools/package.py does by its words."""

    def done(self, *words):
        with mock.patch.object(building, "build_to") as build:
            with mock.patch.object(packing, "pack") as pack:
                package.main(words)
        return [each.args for each in build.mock_calls], [each.args for each in pack.mock_calls]

    def test_words(self):
        built, packed = ("b", ["r", "s"], "v"), ("b", "d", ["deb"], False, True)
        of_build = ("--reuse", "r", "--reuse", "s", "--verdicts", "v")
        of_pack = ("--no-plugins", "--unlicensed", "deb")
        self.assertEqual(self.done("build", "--to", "b", *of_build), ([built], []))
        words = ("pack", "--from", "b", "--to", "d", *of_pack)
        self.assertEqual(self.done(*words), ([], [packed]))
        words = ("plugins", "--from", "l", "--to", "d")
        with mock.patch.object(plugins, "pack") as pack:
            self.assertEqual(self.done(*words), ([], []))
            package.main((*words, "--unlicensed"))
        self.assertEqual(
            [each.args for each in pack.mock_calls], [("l", "d", False), ("l", "d", True)]
        )
        words = ("all", "--to", "d", "--built", "b", *of_build, *of_pack)
        self.assertEqual(self.done(*words), ([built], [packed]))
        self.assertEqual(
            self.done("all", "--to", "d"),
            ([("built", [], None)], [("built", "d", packing.KINDS, True, False)]),
        )

    def test_refused_words(self):
        for words in ([], ["pack", "--to", "d"], ["all"], ["all", "--to", "d", "rpm"]):
            with self.assertRaises(SystemExit), mock.patch("sys.stderr"):
                package.main(words)


class Folder(unittest.TestCase):
    """A case with a folder of its own."""

    def setUp(self):
        self.folder = tempfile.mkdtemp()
        self.addCleanup(shutil.rmtree, self.folder)

    def path(self, *names):
        return os.path.join(self.folder, *names)

    def write(self, text, *names):
        os.makedirs(os.path.dirname(self.path(*names)), exist_ok=True)
        with open(self.path(*names), "w", encoding="utf-8") as file:
            file.write(text)
        return self.path(*names)

    def ends(self, text, call, *arguments):
        """The call ends the program with a message that has this text."""
        with self.assertRaises(SystemExit) as ended:
            call(*arguments)
        self.assertIn(text, str(ended.exception.code))


class Archives(Folder):
    """A tar and a zip depend on names and content alone."""

    def tree(self, name, names, mode, seconds):
        for it in names:
            path = self.write(f"{it}\n", name, it)
            os.chmod(path, mode | (0o100 if it == "tool" else 0))
            os.utime(path, (seconds, seconds))
        os.symlink("tool", self.path(name, "link"))
        return self.path(name)

    def test_a_tar_is_the_same_whatever_the_order_the_modes_and_the_times(self):
        first = self.tree("first", ("a", "b/c", "tool"), 0o644, 1_600_000_000)
        second = self.tree("second", ("tool", "b/c", "a"), 0o600, 1_500_000_000)
        made = [self.path(it) for it in ("1.tar.gz", "2.tar.gz")]
        for path, root in zip(made, (first, second)):
            reproducible.write_tar(path, root, "top", WHEN)
        self.assertEqual(*map(reproducible.read_bytes, made))

    def test_a_tar_has_names_modes_and_links(self):
        root = self.tree("root", ("a", "b/c", "tool"), 0o600, 1)
        path = reproducible.write_tar(self.path("x.tar.gz"), root, "top", WHEN)
        with tarfile.open(path) as tar:
            found = {it.name: (it.mode, it.uid, it.uname, it.mtime, it.linkname) for it in tar}
        rest = (0, "root", WHEN)
        self.assertEqual(list(found), ["top/a", "top/b/c", "top/link", "top/tool"])
        self.assertEqual(found["top/a"], (0o644, *rest, ""))
        self.assertEqual(found["top/tool"], (0o755, *rest, ""))
        self.assertEqual(found["top/link"], (0o755, *rest, "tool"))

    def test_a_zip_has_the_time_given(self):
        path = reproducible.write_zip(self.path("x.zip"), {"a.so": b"1", "b": b"2"}, WHEN)
        with zipfile.ZipFile(path) as whole:
            times = {it.date_time for it in whole.infolist()}
            modes = [it.external_attr >> 16 for it in whole.infolist()]
        self.assertEqual(times, {(2023, 11, 14, 22, 13, 20)})
        self.assertEqual(modes, [0o100755, 0o100644])

    def test_a_folder_has_one_time_and_two_modes(self):
        root = self.tree("root", ("a", "b/c", "tool"), 0o600, 1)
        os.chmod(self.path("root", "b"), 0o700)
        reproducible.normalise(root, WHEN)
        found = {it: os.lstat(self.path("root", it)) for it in ("a", "b", "b/c", "tool", "link")}
        self.assertEqual({it.st_mtime for it in found.values()}, {WHEN})
        modes = [found[it].st_mode & 0o777 for it in ("a", "b", "b/c", "tool")]
        self.assertEqual(modes, [0o644, 0o755, 0o644, 0o755])

    def test_a_command_gets_no_flags_of_the_user(self):
        with mock.patch.dict(os.environ, {"CFLAGS": "-O0", "TZ": "Asia/Tokyo", "LC_ALL": "C"}):
            given = reproducible.environment(WHEN)
        self.assertNotIn("CFLAGS", given)
        self.assertEqual(given["TZ"], "UTC")
        self.assertEqual(given["SOURCE_DATE_EPOCH"], str(WHEN))
        self.assertEqual(given["PATH"], os.environ["PATH"])


class Records(Folder):
    def test_a_verdict_is_the_line_of_the_crate_and_not_of_its_tests(self):
        found = record.verdicts(LOG)
        self.assertEqual(found["gf256"], "logic=proved functions=10 sum=1")
        self.assertEqual(found["kernels"], "logic=proved functions=46 sum=1")
        self.assertEqual(set(found), {"gf256", "kernels"})

    def test_a_log_without_a_crate_is_refused(self):
        self.ends("has no verdict of lrc_code", building.verdicts_of, self.write(LOG, "log"))

    def test_without_a_log_there_are_no_verdicts(self):
        self.assertEqual(set(building.verdicts_of(None).values()), {None})

    def test_a_release_has_the_crates_of_the_programs_and_the_libraries(self):
        found = record.crates()
        self.assertLess(found.index("gf256"), found.index("lrcstore"))
        for each in ("lrcstore", "lrc", "lrc_files", "coder_c", "store_c", "session"):
            self.assertIn(each, found)
        for each in ("test_code", "bench_coder", "sharded"):
            self.assertNotIn(each, found)

    def test_the_sum_of_a_crate_is_that_of_the_shell(self):
        there = os.path.join(TOP, "crates", "command_line")
        command = "find src specs proofs -type f | sort | xargs sha256sum | sha256sum"
        environment = {**os.environ, "LC_ALL": "C"}
        ran = subprocess.run(
            ["sh", "-c", command], cwd=there, env=environment, stdout=subprocess.PIPE, text=True
        )
        self.assertEqual(record.sources("command_line"), ran.stdout.split()[0])

    def test_what_is_not_reused_is_proved_and_built(self):
        self.write("as it is", "ready", "libcoder_c_v2.a")
        self.write("as it was", "more", "libcoder_c_v2.a")
        self.write("reused", "more", "lrc")
        asked, programs = [], []

        def prove(*words):
            asked.append(words[:2])
            return self.write(" ".join(words[:2]), "proved")

        def program(name):
            programs.append(name)
            return self.write(name, "program")

        os.mkdir(self.path("built"))
        ready = [self.path("ready"), self.path("more")]
        with mock.patch.object(libraries, "prove", prove), mock.patch.object(
            libraries, "kit_libc", lambda built: program("libc")
        ), mock.patch.object(building.build, "build_all", program):
            building.fill(self.path("built"), ready)
        self.assertEqual(sorted(os.listdir(self.path("built"))), sorted(record.FILES))
        self.assertEqual(asked, [it for it in record.ARCHIVES.values() if it != ("coder_c", "v2")])
        found = {it: reproducible.read_bytes(self.path("built", it)) for it in record.FILES}
        self.assertEqual(programs, ["lrcstore", "libc"])
        self.assertEqual((found["lrcstore"], found["lrc"]), (b"lrcstore", b"reused"))
        self.assertEqual(found["libcoder_c_v2.a"], b"as it is")
        self.assertEqual(found["libstore_c_v3.a"], b"store_c v3")
        for it in record.PROGRAMS:
            self.assertTrue(os.access(self.path("built", it), os.X_OK))

    def built(self):
        """A folder as BUILT, of other bytes."""
        for it in record.FILES:
            self.write(it, "built", it)
        parts = [{"crate": it, "sources": record.sources(it)} for it in record.crates()]
        sums = {it: reproducible.sha256(self.path("built", it)) for it in record.FILES}
        written = {"crates": parts, "files": sums, "compilers": {"kit": "kit-1 logic"}}
        record.write_json(written, self.path("built"), record.RECORD)
        return written

    def test_built_is_read_as_it_was_written(self):
        self.assertEqual(self.built(), record.read_record(self.path("built")))

    def test_a_changed_archive_is_named(self):
        self.built()
        self.write("changed", "built", "libstore_c_v3.a")
        self.ends("than libstore_c_v3.a", record.read_record, self.path("built"))
        os.remove(self.path("built", "libstore_c_v3.a"))
        self.ends("than libstore_c_v3.a", record.read_record, self.path("built"))

    def test_other_sources_are_named(self):
        written = self.built()
        written["crates"][0]["sources"] = "0" * 64
        record.write_json(written, self.path("built"), record.RECORD)
        first = written["crates"][0]["crate"]
        self.ends(f"other sources of {first}", record.read_record, self.path("built"))

    def test_without_a_record_it_names_the_command(self):
        self.ends("tools/package.py build", record.read_record, self.folder)

    def test_the_bill_has_each_crate_and_the_kits_libraries(self):
        bill = record.bill_of_materials(self.built(), "0.1.0", "commit")
        parts = {it["bom-ref"]: it for it in bill["components"]}
        self.assertEqual(parts["crate/gf256"]["hashes"][0]["content"], record.sources("gf256"))
        self.assertEqual(parts["kit/clap"]["version"], "kit-1")
        self.assertEqual((bill["bomFormat"], bill["specVersion"]), ("CycloneDX", "1.5"))
        edges = {it["ref"]: it["dependsOn"] for it in bill["dependencies"]}
        tops = ["coder_c", "lrc", "lrcstore", "store_c"]
        self.assertEqual(edges["lrcstore"], [f"crate/{it}" for it in tops])
        self.assertEqual(edges["crate/command_line"], ["crate/script", "kit/clap"])
        used = {each for below in edges.values() for each in below}
        self.assertLessEqual(used, set(parts))


class Licences(Folder):
    def test_without_a_licence_nothing_is_made(self):
        with mock.patch.object(licence, "text", lambda: None):
            self.ends("--unlicensed", licence.demand, False)
            licence.demand(True)
            self.assertIn("License: none-chosen", licence.in_debian(2026))

    def test_the_licence_is_in_the_packages(self):
        with mock.patch.object(licence, "text", lambda: "One.\n\nTwo.\n"):
            licence.demand(False)
            self.assertIn("License: see-below\n One.\n .\n Two.\n", licence.in_debian(2026))
            self.assertIn("License-File: LICENSE\n", wheel.described("1", "t")["METADATA"])
            self.assertEqual(wheel.described("1", "t")["LICENSE"], "One.\n\nTwo.\n")

    def test_a_folder_with_other_files_is_refused(self):
        self.write("", "dist", "old.deb")
        self.ends("is not empty", packing.empty, self.path("dist"))


@unittest.skipUnless(os.path.exists(python_extension.header()), "no python3-dev")
class Wheels(Folder):
    # Prints where a process has both libraries from.
    MAPS = """
lines = open("/proc/self/maps").read().split()
print(*sorted({it for it in lines if "/liblrc_" in it}))
"""

    @classmethod
    def setUpClass(cls):
        cls.made = tempfile.mkdtemp()
        cls.addClassCleanup(shutil.rmtree, cls.made)
        shutil.copy("/bin/true", os.path.join(cls.made, "lrc"))
        (cls.wheel,) = wheel.pack(cls.made, LINKED, cls.made, "0.1.0", WHEN)

    def setUp(self):
        super().setUp()
        self.name = os.path.basename(self.wheel)
        with zipfile.ZipFile(self.wheel) as whole:
            whole.extractall(self.path("site"))
            self.names = whole.namelist()

    def printed(self, code, python=sys.executable, **more):
        """The words that a Python prints, whose modules are in the folder `site` if none are
        named."""
        inherited = {it: word for it, word in os.environ.items() if not it.startswith("LRC_")}
        ran = subprocess.run(
            [python, "-c", code],
            env={**inherited, "PYTHONPATH": self.path("site"), **more},
            stdout=subprocess.PIPE,
            stderr=subprocess.STDOUT,
            text=True,
        )
        self.assertEqual(ran.returncode, 0, ran.stdout)
        return ran.stdout.split()

    def library(self, name, *folder):
        return self.path(*(folder or ("site",)), "lrcstore", f"liblrc_{name}.so.0.1")

    @unittest.skipUnless(importlib.util.find_spec("pip"), "no pip")
    def test_a_fresh_environment_has_the_package_and_the_program(self):
        venv.create(self.path("fresh"), symlinks=True)
        command = [sys.executable, "-m", "pip", "install", "-qqq", "--no-index", self.wheel]
        subprocess.run([*command, "--prefix", self.path("fresh")], check=True)
        code = "from lrcstore import Store; store = Store(4); store.put('a', b'HELLO')"
        code += "; print(store.get('a'))"
        version = "python{}.{}".format(*sys.version_info)
        site = ("fresh", "lib", version, "site-packages")
        said = self.printed(code + self.MAPS, self.path("fresh", "bin", "python"), PYTHONPATH="")
        self.assertEqual(said, ["b'HELLO'", self.library("store", *site)])
        subprocess.run([self.path("fresh", "bin", "lrc")], check=True)

    def test_each_extension_finds_its_library_without_the_modules(self):
        for module, library in (("_coder", "coder"), ("_native", "store")):
            code = f"import {module}{self.MAPS}"
            said = self.printed(code, PYTHONPATH=self.path("site", "lrcstore"))
            self.assertEqual([os.path.realpath(it) for it in said], [self.library(library)])

    def test_each_module_loads_its_library_alone(self):
        for code, library in (
            ("from lrcstore import Store", "store"),
            ("import lrcstore; lrcstore.name_of('a')", "store"),
            ("import lrc_coder", "coder"),
            ("from lrcstore import coder; coder.encode", "coder"),
        ):
            self.assertEqual(self.printed(code + self.MAPS), [self.library(library)], code)

    def test_the_coder_needs_no_library_of_the_store(self):
        os.remove(self.library("store"))
        code = "from lrcstore import coder; print(coder.is_unrecoverable(12, [3], 3))"
        self.assertEqual(self.printed(code), ["False"])

    def test_an_older_python_is_refused(self):
        for version, said in (
            ((3, 10, 13), "lrcstore needs Python 3.11 or later, whose stable ABI its modules have"),
            ((3, 11, 0), "imported"),
        ):
            code = f"""
import sys; sys.version_info = {version}
try:
    import lrcstore
    print("imported")
except ImportError as error:
    print(error)
"""
            self.assertEqual(" ".join(self.printed(code)), said)

    def test_its_name_and_its_tag_are_those_of_the_stable_abi(self):
        tag = re.search("cp311-abi3-manylinux_2_[0-9]+_x86_64", self.name).group(0)
        self.assertEqual(self.name, f"lrcstore-0.1.0-{tag}.whl")
        info = self.path("site", "lrcstore-0.1.0.dist-info")
        self.assertIn(f"\nTag: {tag}\n", reproducible.read_bytes(info, "WHEEL").decode())
        metadata = reproducible.read_bytes(info, "METADATA").decode()
        self.assertIn("\nRequires-Python: >=3.11\n", metadata)
        names = {it.partition("/")[0] for it in self.names}
        data = {f"lrcstore-0.1.0.{it}" for it in ("data", "dist-info")}
        self.assertEqual(names, {"lrc_coder.py", "lrcstore", *data})

    def test_without_the_header_of_python_none_is_made(self):
        with mock.patch.object(python_extension, "header", lambda: "/no/Python.h"):
            self.ends("python3-dev", wheel.demand)
        wheel.demand()

    def test_its_record_has_each_file(self):
        info = "lrcstore-0.1.0.dist-info"
        with open(self.path("site", info, "RECORD"), encoding="utf-8") as file:
            rows = [line.rstrip("\n").split(",") for line in file]
        self.assertEqual([it[0] for it in rows], self.names)
        for name, digest, size in rows[:-1]:
            data = reproducible.read_bytes(self.path("site", name))
            self.assertEqual(int(size), len(data))
            said = wheel.base64.urlsafe_b64encode(hashlib.sha256(data).digest()).decode()
            self.assertEqual(digest, f"sha256={said.rstrip('=')}")
        self.assertEqual(rows[-1], [f"{info}/RECORD", "", ""])

    def test_its_tag_is_the_newest_glibc_that_a_library_needs(self):
        printed = "a GLIBC_2.2.5 x\nb (GLIBC_2.34) y\nc GLIBC_2.4 z\n"
        with mock.patch.object(libraries, "run", lambda *words: printed):
            self.assertEqual(wheel.glibc_of("x"), (2, 34))
        with mock.patch.object(libraries, "run", lambda *words: "GLIBC_2.4"):
            self.assertEqual(wheel.glibc_of("x"), (2, 17))
        found = re.search(r"manylinux_2_(\d+)_x86_64", self.name)
        self.assertGreaterEqual(int(found.group(1)), 17)


class Crates(Folder):
    def test_a_crate_has_its_library_and_the_script_of_both(self):
        for path in crates.pack(LINKED, self.folder, "0.1.0", WHEN):
            name = os.path.basename(path)[: -len("-0.1.0.crate")]
            with tarfile.open(path) as tar:
                names = {it.name[len(f"{name}-0.1.0/") :] for it in tar}
                script = tar.extractfile(f"{name}-0.1.0/build.rs").read()
            self.assertLessEqual({f"lib{name}.a", "Cargo.toml", "src/lib.rs", "build.rs"}, names)
            self.assertIn(b"fn packed(", script)
            examples = {it for it in names if it.startswith("examples/")}
            wanted = ("rebuild",) if name == "lrc_coder" else ("store", "shards")
            self.assertEqual(examples, {f"examples/{it}.rs" for it in wanted})


class Assembly(Folder):
    def test_each_function_of_a_header_has_its_code(self):
        (path,) = assembly.pack(LINKED, self.folder, "0.1.0", WHEN)
        with tarfile.open(path) as tar:
            for name in libraries.LIBRARIES:
                text = tar.extractfile(f"liblrc-0.1.0-assembly/{name}.s").read().decode()
                for each in libraries.declared(name):
                    self.assertIn(f"<{each}>:", text.replace(f"@@{libraries.label(name)}", ""))


class Debian(Folder):
    def test_the_symbols_are_those_of_the_header(self):
        lines = list(debian.symbols("lrc_coder"))
        self.assertEqual(lines[0], "liblrc_coder.so.0.1 liblrc-coder0.1 #MINVER#")
        names = {line.split("@")[0].strip() for line in lines[2:]}
        self.assertEqual(names, {"LRC_CODER_0.1", *libraries.declared("lrc_coder")})
        self.assertIn(" lrc_add@LRC_CODER_0.1 0.1.0", lines)

    def test_the_lists_name_the_library(self):
        debian.write_lists(self.folder)
        found = reproducible.read_bytes(self.path("liblrc-store0.1.install")).decode()
        self.assertEqual(found.split("\n")[0], "usr/lib/*/liblrc_store.so.0.1")
        self.assertIn("usr/lib/*/liblrc_store.so.0.1.0\n", found)

    def test_another_ceph_is_refused(self):
        there = {os.devnull: debian.HEADERS_OF_CEPH}
        for found, missing in (("16.2.15+ds", 0), ("18.2.0+ds", 1), ("16.2.1", 1)):
            with mock.patch.object(debian, "HEADERS", there), mock.patch.object(
                libraries, "run", lambda *words, version=found: version
            ):
                self.assertEqual(len(debian.missing_for_plugins()), missing, found)
        with mock.patch.object(debian, "HEADERS", {"/no/header": "a-package"}):
            self.assertEqual(debian.missing_for_plugins(), ["a-package"])

    def test_the_plugin_is_for_the_ceph_that_is_tested(self):
        self.assertRegex(libraries.read("docs", "limits.md"), rf"\| Ceph \| {debian.CEPH}\b")
        self.assertEqual(debian.after(debian.CEPH), "16.2.16~")
        self.assertEqual(debian.after("20.2.9"), "20.2.10~")


class Plugins(Folder):
    """The packages of the plugins alone, of which integrations/roots.sh makes the whole."""

    def setUp(self):
        super().setUp()
        shutil.copy(os.path.join(LINKED, plugins.ARCHIVE), self.folder)

    def test_what_is_missing_is_named(self):
        with mock.patch.object(plugins, "NEEDED", {"/no/file": "a-package"}):
            with mock.patch.object(debian, "PROGRAMS", {"no-program": "dpkg-dev"}):
                with self.assertRaisesRegex(SystemExit, "need dpkg-dev a-package$"):
                    plugins.demand(self.folder)
            with mock.patch.object(debian, "PROGRAMS", {"sh": "dash"}):
                with self.assertRaisesRegex(SystemExit, "need a-package$"):
                    plugins.demand(self.folder)
        with self.assertRaisesRegex(SystemExit, "has no liblrc_coder.a"):
            plugins.demand(self.path("none"))

    def test_a_later_debian_has_a_later_version(self):
        found = []
        for text in ('NAME="Debian"\nVERSION_ID="12"\n', 'VERSION_ID="13"\n', "ID=debian\n\n"):
            with open(self.path("os-release"), "w", encoding="utf-8") as file:
                file.write(text)
            found.append(plugins.revision(self.path("os-release")))
        self.assertEqual(found, ["1+deb12", "1+deb13", "1+sid"])

    def test_the_time_is_given_or_the_commit_s(self):
        with mock.patch.dict(os.environ, {"SOURCE_DATE_EPOCH": "77"}):
            self.assertEqual(plugins.when_made(), 77)
        with mock.patch.dict(os.environ, clear=True), mock.patch.object(plugins, "moment", int):
            self.assertEqual(plugins.when_made(), 0)

    def test_the_version_of_ceph(self):
        printed = "ceph version 18.2.7 (6b0e) reef (stable)\n"
        with mock.patch.object(libraries, "run", lambda *words: printed):
            self.assertEqual(plugins.ceph_version(), "18.2.7")

    def packed(self):
        """What debhelper would be given: the files, and the words of `debian.build`."""
        seen = []

        def build(work, dist, when, ceph, profile):
            debian_folder = os.path.join(work, "debian")
            texts = [reproducible.read_bytes(debian_folder, it) for it in ("control", "changelog")]
            names = set(reproducible.files_below(work))
            seen.append((names, texts, (dist, when, ceph, profile)))
            package_of = os.path.join(dist, "one.deb")
            return [libraries.write(["one"], package_of)]

        with contextlib.ExitStack() as stack:
            for where, name, it in (
                (debian, "build", build),
                (plugins, "demand", lambda folder: None),
                (plugins, "settle", lambda when: None),
                (plugins, "when_made", lambda: WHEN),
                (plugins, "ceph_version", lambda: "20.2.4"),
                (plugins, "revision", lambda: "1+sid"),
            ):
                stack.enter_context(mock.patch.object(where, name, it))
            stack.enter_context(contextlib.redirect_stdout(io.StringIO()))
            plugins.pack(self.folder, self.path("dist"), True)
        return seen[0]

    def test_only_the_plugins_are_packed(self):
        names, (control, changelog), words = self.packed()
        wanted = (self.path("dist"), WHEN, "20.2.4", "pkg.lrcstore.onlyplugins")
        self.assertEqual(words, wanted)
        self.assertIn("linked/liblrc_coder.a", names)
        self.assertIn("integrations/ceph/build.sh", names)
        self.assertIn(b"ceph-base (>= 20.2.4), ceph-base (<< 20.2.5~)", control)
        self.assertTrue(changelog.startswith(b"lrcstore (0.1.0-1+sid) "), changelog)
        others = [it for it in control.decode().split("\n\n") if "onlyplugins>" in it]
        named = [re.search(r"Package: (\S+)", it)[1] for it in others]
        self.assertEqual(
            named,
            ["lrcstore", "liblrc-coder0.1", "liblrc-store0.1", "liblrc-dev", "python3-lrcstore"],
        )


class Manuals(Folder):
    def test_each_function_and_type_has_its_declaration(self):
        for name in libraries.LIBRARIES:
            page = manual.of_header(name)
            header = libraries.read("include", f"{name}.h")
            inline = re.findall(r"^static inline uint32_t (\w+)\(", header, re.M)
            constants = re.findall(r"^    (LRC_\w+) = ", header, re.M)
            for each in [*libraries.declared(name), *inline]:
                self.assertRegex(page, rf"(?m)^\\fB.*\b{each}\(", name)
            for each in constants:
                self.assertIn(f"{each} = ", page)
            self.assertNotIn("for (i = 0", page)
            self.assertNotIn("#ifdef", page)

    def test_a_comment_stands_below_what_it_is_about(self):
        page = manual.of_header("lrc_coder")
        declared, said = page.index("lrc_is_open(size_t"), page.index("LRC_UNRECOVERABLE if and")
        self.assertLess(declared, said)
        self.assertLess(said, page.index("lrc_rebuild(size_t"))

    def test_no_line_is_a_command_by_chance(self):
        self.assertEqual(manual.escaped(".x\\n-"), "\\&.x\\en\\-")
        self.assertEqual(manual.escaped("'x"), "\\&'x")

    def options(self):
        """The options of each program: those of `lrc` are those that its crate defines."""
        defined = r'\b(?:valued|number|listed|flag)\(\s*alloc,\s*"([a-z]+)"'
        lrc = re.findall(defined, libraries.read(LRC_LINE))
        self.assertGreater(len(lrc), 10)
        return {"lrcstore": OPTIONS, "lrc": (*lrc, "help", "version")}

    def test_the_page_of_each_program_has_each_option(self):
        for program, options in self.options().items():
            page = manual.of_program(program)
            self.assertIn(f"lrcstore {libraries.version()}", page)
            for each in options:
                self.assertRegex(page, rf"\\-\\-{each}\b", program)

    def test_each_completion_has_each_option(self):
        folder = os.path.join("packaging", "completion")
        for program, options in self.options().items():
            for shell, before in (("bash", "--"), ("zsh", "--"), ("fish", "-l ")):
                text = libraries.read(folder, f"{program}.{shell}")
                for each in options:
                    self.assertRegex(text, rf"{before}{each}\b", f"{program} {shell}")

    def test_each_completion_of_bash_is_that_of_the_command(self):
        said = {}
        for command in ("split", "verify", "repair", "join", "show"):
            script = f". packaging/completion/lrc.bash; COMP_WORDS=(lrc {command} --)"
            script += '; COMP_CWORD=2; _lrc; printf "%s\\n" "${COMPREPLY[@]}"'
            ran = subprocess.run(
                ["bash", "-c", script], cwd=TOP, stdout=subprocess.PIPE, text=True, check=True
            )
            said[command] = set(ran.stdout.split())
        common = said.pop("show")
        self.assertEqual({it: said[it] - common for it in said}, {
            "split": {"--to", "--code", "--width", "--name", "--force"},
            "verify": {"--expect"},
            "repair": {"--to", "--check"},
            "join": {"--to", "--range", "--force"},
        })


class Comparisons(Folder):
    def release(self, name, text, **more):
        """A folder with a tar and a zip, and a JSON file."""
        self.write(text, name, "root", "include", "a.h")
        self.write("same", name, "root", "b")
        dist = self.path(name, "dist")
        os.mkdir(dist)
        path = os.path.join(dist, "x.tar.gz")
        reproducible.write_tar(path, self.path(name, "root"), "x", WHEN)
        reproducible.write_zip(os.path.join(dist, "y.whl"), {"a": b"1", "b": text}, WHEN)
        record.write_json({"built": [{"sum": text}, {"sum": "same"}]}, dist, "z.json")
        for file, content in more.items():
            self.write(content, name, "dist", file)
        return dist

    def test_equal_folders_have_no_differences(self):
        first, second = self.release("first", "1"), self.release("second", "1")
        self.assertEqual(list(comparing.differences(first, second)), [])

    def test_the_members_that_differ_are_named(self):
        first, second = self.release("first", "1", old="1"), self.release("second", "2", new="1")
        self.assertEqual(
            list(comparing.differences(first, second)),
            [
                "new: only made again",
                "old: not made again",
                "x.tar.gz: x/include/a.h",
                "y.whl: b",
                "z.json: built.0.sum",
            ],
        )

    def test_a_package_of_debian_is_an_archive_of_two(self):
        def deb(text):
            whole = [b"!<arch>\n"]
            for name, content in (("control.tar.gz", "same"), ("data.tar.gz", text)):
                self.write(content, "deb", "usr", "file")
                packed = reproducible.write_tar(self.path(name), self.path("deb"), ".", WHEN)
                data = reproducible.read_bytes(packed)
                head = f"{name:<16}{0:<12}{0:<6}{0:<6}{'100644':<8}{len(data):<10}`\n"
                whole += [head.encode(), data, b"\n" * (len(data) % 2)]
            return b"".join(whole)

        said = comparing.difference("x.deb", deb("1"), deb("2"))
        self.assertEqual(said, "x.deb: data: ./usr/file")

    def test_what_cannot_be_read_is_compared_by_its_bytes(self):
        self.assertEqual(comparing.difference("x.json", b"{", b"{}"), "x.json: 1 and 2 bytes")
        said = comparing.difference("x.json", b"{}", b"{ }")
        self.assertEqual(said, "x.json: the same members, packed otherwise")

    def test_the_checksums_name_each_file(self):
        self.write("1", "a")
        self.write("2", "b")
        self.write("3", "c")
        sums = [f"{reproducible.sha256(self.path('a'))}  a", f"{'0' * 64}  b", f"{'0' * 64}  d"]
        libraries.write(sums, self.folder, packing.SUMS)
        said = [it.split(":")[0] for it in comparing.wrong_sums(self.folder)]
        self.assertEqual(said, ["b", "c", "d"])

    def test_the_kinds_and_options_are_those_that_it_was_made_with(self):
        names = ["a.deb", "b.whl", "c-x86_64.tar.gz", "SHA256SUMS"]
        self.assertEqual(comparing.kinds_of(names), ["deb", "wheel", "tar"])
        self.assertIn("--no-plugins", comparing.options_of(names))
        self.assertNotIn("--no-plugins", comparing.options_of([f"{comparing.PLUGIN}1.deb"]))

    def test_packages_of_changed_files_are_refused(self):
        origin = {"packed": {"commit": "0", "changed": True}}
        record.write_json(origin, self.folder, "lrcstore-1.provenance.json")
        self.ends("can't be made again", comparing.provenance_of, self.folder)
        origin["packed"]["changed"] = False
        record.write_json(origin, self.folder, "lrcstore-1.provenance.json")
        self.assertEqual(comparing.provenance_of(self.folder), origin)


if __name__ == "__main__":
    unittest.main()
