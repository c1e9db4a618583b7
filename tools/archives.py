"""Static libraries and programs for a processor, over what the gate has proved.

An archive is built over the libraries that `ci` has proved, and over what its mutants' proof of the
crate itself left. If the gate has not run, or a file has changed since, the crates are proved
first. For v4 (AVX-512) that is done in a copy of the crates, in which a block has 64 bytes in place
of 32: `ci` proves them there, and the kit's own compiler builds, since the kit refuses LLVM for v4.

A program is proved as `ci` proves it, with the crates below it, side by side and from the bottom
up, without their tests and mutants. Kit 13f keeps what that proves.
"""

import os
import re
import shutil
import subprocess
import sys
import tempfile

import kit
import rounds

TOP = os.path.dirname(os.path.dirname(os.path.abspath(__file__)))
RT = os.path.join(TOP, "tools", "rt_once.py")
# The source that says how many bytes a block has, and how many AVX-512 has at once.
LANES, WIDE = "crates/kernels/src/lanes.rt", 64


def crate_named(rt, name, top=TOP):
    """A crate of this repository or of a copy, as the gate sees it."""
    rt.rtlib.Crate = rt.Crate
    rt.Crate.cuts_libraries = True
    rt.Crate.allowed = rt.handles_of(top)
    found = [crate for crate in rt.rtlib.crates_below(top) if crate.name == name]
    if not found or not (found[0].is_static or found[0].is_program):
        sys.exit(f"crates.txt has no static library or program {name}")
    return found[0]


def is_proved(rt, crate):
    """Whether the gate has proved these files, and its libraries still stand."""
    libraries = [dep.rlib for dep in crate.below()]
    stamped = [path for path in libraries if os.path.exists(f"{os.path.dirname(path)}/stamp")]
    is_same = rt.rtlib.text_of(f"{crate.folder}/{kit.SUM}") == crate.stamp()
    return is_same and all(map(os.path.isdir, libraries)) and not stamped


def compile_over_gate(rt, crate, cpu, archive):
    """Builds over the libraries that the gate has proved. Returns rattle's status."""
    if not os.path.isdir(f"{crate.folder}/{kit.KEPT}"):
        rounds.unpack_checked(rt, crate, f"{crate.folder}/{kit.KEPT}")
    flags = ["--jobs", str(os.cpu_count()), f"--cpu=x86-64-{cpu}", "--incremental", kit.KEPT]
    command = [rt.rtlib.RATTLE, "build", *crate.words(flags, keeps=False)]
    command += ["--backend", "rattle" if cpu == "v4" else "llvm"]
    command += ["--toolchain", f"{rt.KIT}/toolchain", "-o", archive]
    return subprocess.run(command, cwd=crate.folder, check=False).returncode


def set_width(file, width):
    """Sets how many bytes a block has."""
    with open(file, encoding="utf-8") as source:
        text = source.read()
    text, count = re.subn(r"(?m)^(pub const LANES: usize =) \d+;", rf"\1 {width};", text)
    if count != 1:
        sys.exit(f"{file} has {count} constants LANES, expected 1")
    with open(file, "w", encoding="utf-8") as source:
        source.write(text)


def copy_with_wide_blocks(crate, folder):
    """Copies a crate and those below it, without mutants, and has wide blocks there."""
    parts = [it for it in (crate, *crate.below()) if it.folder.startswith(f"{TOP}/")]
    for part in parts:
        for kind in ("src", "specs", "proofs"):
            if os.path.isdir(f"{part.folder}/{kind}"):
                shutil.copytree(f"{part.folder}/{kind}", f"{folder}/crates/{part.name}/{kind}")
    names = "|".join(part.name for part in parts)
    with open(f"{TOP}/crates.txt", encoding="utf-8") as file:
        lines = [line for line in file if re.match(rf"({names})\b[^:]*:", line)]
    with open(f"{folder}/crates.txt", "w", encoding="utf-8") as file:
        file.writelines(lines)
    shutil.copy(f"{TOP}/HANDLES", folder)
    set_width(f"{folder}/{LANES}", WIDE)


def build_with_wide_blocks(rt, name, cpu, archive):
    """Proves and builds a static library with wide blocks. Returns the status."""
    with tempfile.TemporaryDirectory(prefix="rt-wide-") as folder:
        copy_with_wide_blocks(crate_named(rt, name), folder)
        command = [sys.executable, RT, "ci"]
        ran = subprocess.run(
            command, cwd=folder, stdout=subprocess.PIPE, stderr=subprocess.STDOUT, check=False
        )
        if ran.returncode:
            sys.stdout.write(ran.stdout.decode(errors="replace"))
            return ran.returncode
        return compile_over_gate(rt, crate_named(rt, name, folder), cpu, archive)


def prove_narrowly(rt, crate):
    """Proves this crate and those below it that were not proved before, side by side. Returns the
    status."""
    kit.narrow_ci(rt, crate)
    os.chdir(TOP)
    return rt.ci(False)


def prove(rt, name):
    """The same for a static library or a program that is named."""
    return prove_narrowly(rt, crate_named(rt, name))


def build_archive(rt, name, cpu, archive):
    """Builds a static library, over what the gate has proved if it can. Returns the status."""
    archive = os.path.abspath(archive)
    if cpu == "v4":
        return build_with_wide_blocks(rt, name, cpu, archive)
    crate = crate_named(rt, name)
    if hasattr(rt, "Kept") and not is_proved(rt, crate):
        # a process of its own, since it holds the crates' locks to its end
        status = subprocess.run([sys.executable, RT, "prove", name], check=False).returncode
        if status:
            return status
    if is_proved(rt, crate) and compile_over_gate(rt, crate, cpu, archive) == 0:
        return 0
    command = [sys.executable, RT, "lib", f"--cpu=x86-64-{cpu}"]
    status = subprocess.run(command, cwd=crate.folder, check=False).returncode
    if status == 0:
        shutil.copyfile(f"{crate.folder}/out/lib{name}.a", archive)
    return status


def build_program(rt, name, cpu):
    """Proves and builds a program, over what was proved before. Returns the status."""
    crate = crate_named(rt, name)
    if not hasattr(rt, "Kept"):
        command = [sys.executable, RT, "run", f"--cpu=x86-64-{cpu}"]
        return subprocess.run([*command, "--", "--help"], cwd=crate.folder, check=False).returncode
    if cpu != "v2":
        kit.compile_for(rt, name, cpu)
    return prove_narrowly(rt, crate)
