"""What is replaced in the command rt of kit 13b alone. No later kit needs it.

    checksums of crates    it computes that of a crate anew for each path of crates.txt that leads
                           to it, 5,702 times for `lrcstore`: one walk computes each once
    mutants                it has a call for all mutants of a crate, and keeps no verdict of one
"""

import tempfile
import threading

import rounds


def sum_once(rtlib):
    """Has a walk over the crates read each of them once. A new call is a new walk, and each thread
    of rt has its own."""
    whole, here = rtlib.Crate.stamp, threading.local()

    def stamp(self):
        outer = getattr(here, "walk", None)
        here.walk = {} if outer is None else outer
        try:
            if self.folder not in here.walk:
                here.walk[self.folder] = whole(self)
            return here.walk[self.folder]
        finally:
            here.walk = outer

    rtlib.Crate.stamp = stamp


def try_in_rounds(rt, is_alone, kept):
    """Has rt try mutants in rounds, over what `ci` has checked; for the word `must-fail` over what
    `rt check` has kept, with all processors. If the crate is not proved, rt goes its own way."""
    whole = rt.must_fail_all

    def must_fail_all(crate, edits, flags):
        if len(edits) < 2:
            return whole(crate, edits, flags)
        flags = ["--jobs", str(rt.processors())] if is_alone else flags
        with tempfile.TemporaryDirectory(prefix="rt-proof-") as room:
            # an archive is built over what the trial of a static library starts from
            keeps = crate.is_static and not is_alone
            proof = f"{crate.folder}/{kept}" if keeps else f"{room}/proof"
            rounds.start(rt, crate, proof, is_alone)
            if rt.checked(crate, {}, flags, proof).returncode:
                return whole(crate, edits, flags)
            return rounds.try_edits(rt, crate, edits, flags, proof)

    rt.must_fail_all = must_fail_all
