#!/usr/bin/env python3
"""Measures the coder's calls from Go compared with the same calls from C.

    bench/go_coder.py [--rounds N] [--millis M]

LRC_LIBRARIES names the folder of the libraries. It needs go and gcc, compiles bench/go_coder with
bench/coder_calls.c, and makes both calls in one process, on the same fragments. In each of N rounds
(31 without the option) each call is made for M milliseconds (5), from C and from Go in turn. It
prints the median of C's times, and that of the ratios, each of one round.
"""

import os
import shutil
import subprocess
import sys
import tempfile
from pathlib import Path

from turns import TOP, libraries

GO_MOD = """module go_coder
go 1.19
require lrcstore v0.0.0
replace lrcstore => {}
"""


def main():
    ready = libraries()
    with tempfile.TemporaryDirectory() as folder:
        for path in ("bench/go_coder/main.go", "bench/coder_calls.c"):
            # main.go includes the C source; go would also compile one beside it
            to = os.path.join(folder, "c" if path.endswith(".c") else "", os.path.basename(path))
            os.makedirs(os.path.dirname(to), exist_ok=True)
            shutil.copyfile(os.path.join(TOP, path), to)
        module = GO_MOD.format(os.path.join(TOP, "bindings", "go"))
        Path(folder, "go.mod").write_text(module, "utf-8")
        environment = dict(
            os.environ,
            GOFLAGS="-tags=nopkgconfig -mod=mod",
            CGO_CFLAGS=f"-O2 '-I{TOP}/include' '-I{folder}/c'",
            CGO_LDFLAGS=f"'-L{ready}' -llrc_coder '-Wl,-rpath,{ready}'",
        )
        program = os.path.join(folder, "program")
        build = ["go", "build", "-o", program, "."]
        subprocess.run(build, cwd=folder, env=environment, check=True)
        return subprocess.run([program, *sys.argv[1:]], check=False).returncode


if __name__ == "__main__":
    sys.exit(main())
