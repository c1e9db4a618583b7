"""The kit's command rt as a module, and all that this repository replaces in it.

    mutants                rounds.py tries many in one run, and rt what no round refuses, alone
    checked modules        `ci` drops what a proof has checked: here mutants start from it
    checksums of archives  `ci` proves static libraries and builds none: archives.py does, by these
    a narrow `ci`          rt has no word that proves one crate and those below it side by side
    a program's processor  `ci` builds each program for one: a program can be had for another

No crate is proved by what stands here: rt starts the prover and reads its verdict. The command of
kit 13b is another one: kit_13b.py has what is replaced in it alone.
"""

import importlib.machinery
import importlib.util
import os
import pathlib
import shutil
import subprocess
import tempfile
import threading

import kit_13b
import rounds

# What `ci` leaves of a crate: its checksum, what the prover kept, and that its library is whole.
SUM, KEPT, STAMP = "out/gate.sum", "out/kept", "out/rlib/stamp"
KITS = ("rattle-kit-13b ", "rattle-kit-13f ")  # those whose `ci` is known here


def load_rt(words=()):
    """The kit's command as a module, with its library `rtlib`, ready for these words."""
    page = subprocess.run(["rt", "doc"], stdout=subprocess.PIPE, text=True, check=True).stdout
    path = os.path.join(os.path.dirname(page), "bin", "rt")
    loader = importlib.machinery.SourceFileLoader("rt", path)
    rt = importlib.util.module_from_spec(importlib.util.spec_from_loader("rt", loader))
    loader.exec_module(rt)
    if pathlib.Path(f"{rt.KIT}/KIT-ID").read_text().startswith(KITS):
        leave_checked(rt)
        if hasattr(rt, "add_edits"):
            try_in_rounds(rt)
        else:
            kit_13b.sum_once(rt.rtlib)
            kit_13b.try_in_rounds(rt, words[:1] == ["must-fail"], KEPT)
    return rt


def note_sum(crate):
    """Leaves the checksum of a static library that `ci` has proved."""
    if crate.is_static:
        pathlib.Path(f"{crate.folder}/{SUM}").write_text(crate.stamp())


def leave_checked(rt):
    """Has `ci` leave the checked modules of a library with mutants, and those and the checksum of a
    static library: the checksum also of what an earlier run proved, if the kit keeps that."""
    whole_ci, whole_build = rt.Crate.ci, rt.Crate.build_rlib

    def build_rlib(self, flags, anew):
        if not anew:
            return whole_build(self, flags, anew)
        self.cuts_libraries = not rt.edits_of(self)[0]
        status = whole_build(self, flags, anew)
        # by its stamp `rt check` would take this library
        pathlib.Path(f"{self.folder}/{STAMP}").unlink(missing_ok=True)
        return status

    def ci(self, flags, tests):
        if tests or not self.is_static:
            return whole_ci(self, flags, tests)
        status = self.prove(["check", *self.words(flags, keeps=False), "-o", rounds.CHECKED])
        if not status:
            note_sum(self)
        return status

    rt.Crate.ci, rt.Crate.build_rlib = ci, build_rlib
    if hasattr(rt, "Kept"):
        whole_built = rt.Kept.is_built
        rt.Kept.is_built = lambda self, crate: (whole_built(self, crate), note_sum(crate))


def try_in_rounds(rt):
    """Has rt try mutants in rounds once it has their seed, in `ci` over what the crate's own proof
    has checked. A mutant's own trial takes what a round shows. A bad edit fails `ci` here."""
    whole_add, whole_seeded, whole_fail = rt.add_edits, rt.seeded, rt.must_fail
    whole_checked, here, left, refused = rt.checked, threading.local(), {}, {}

    def add_edits(tasks, crate, edits, *given, in_ci=True):
        results, known = whole_add(tasks, crate, edits, *given, in_ci=in_ci)
        seed = (crate.name, "seed")
        if in_ci and seed in tasks:
            tasks[seed] = ([(crate.name, "proof")], *tasks[seed][1:])
        left[crate.name] = in_ci, lambda: [it for at, it in enumerate(edits) if at not in known()]
        return results, known

    def seeded(crate, flags, start=None):
        in_ci, untried = left[crate.name]
        with tempfile.TemporaryDirectory(prefix="rt-proof-") as room:
            if in_ci:
                rounds.unpack_checked(rt, crate, f"{room}/proof")
            seed = whole_seeded(crate, flags, f"{room}/proof" if in_ci else start)
        if seed:
            if in_ci and crate.is_static:  # an archive is built over it
                shutil.copytree(f"{seed}/seed", f"{crate.folder}/{KEPT}", copy_function=os.link)
            refused.update(rounds.refused(rt, crate, untried(), flags, f"{seed}/seed"))
        return seed

    def checked(*given):
        here.ran = whole_checked(*given)
        return here.ran

    def must_fail(crate, edit, flags, kept=None):
        if kept and edit in refused:
            return rt.REFUSED, refused[edit]
        kind, text = whole_fail(crate, edit, flags, kept)
        if kind == rt.REFUSED and not rounds.is_covered(rt, crate, edit, here.ran):
            return rt.MISSED, rounds.uncovered(crate, edit)
        return rt.MISSED if kind == rt.BAD else kind, text

    rt.add_edits, rt.seeded, rt.must_fail, rt.checked = add_edits, seeded, must_fail, checked


def narrow_ci(rt, crate):
    """Has `ci` prove this crate and those below it, without their tests and mutants. A task for
    tests would halve the processors of the proof beside it."""
    whole_ci, whole_aside, whole_lanes = rt.ci_over, rt.set_aside, rt.in_lanes
    names = {it.name for it in (crate, *crate.below())}

    def in_lanes(tasks):
        proofs = {key: task for key, task in tasks.items() if key[1] != "tests"}
        return {**dict.fromkeys(tasks, True), **whole_lanes(proofs)}

    rt.edits_of = lambda crate: ([], [])
    rt.Crate.has_tests = lambda self: False
    rt.ci_over = lambda aside, anew, *_: whole_ci(aside, anew, [crate.name])
    rt.set_aside = lambda root, found, aside: whole_aside(root, names.intersection(found), aside)
    rt.in_lanes = in_lanes


def compile_for(rt, name, cpu):
    """Has `ci` build a program for a processor. What it keeps is of no processor, so it neither
    takes this program from there nor keeps it."""
    whole, give, keep = rt.Crate.ci, rt.Kept.give, rt.Kept.keep

    def ci(self, flags, tests):
        more = [f"--cpu=x86-64-{cpu}"] if self.name == name else []
        return whole(self, [*flags, *more], tests)

    rt.Crate.ci = ci
    rt.Kept.give = lambda self, crate, *rest: crate.name != name and give(self, crate, *rest)
    rt.Kept.keep = lambda self, crate, *rest: crate.name != name and keep(self, crate, *rest)
