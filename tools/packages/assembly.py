"""The machine code of both libraries as text, for readers who judge it or compare two releases."""

import os
import tempfile

import libraries
from packages.reproducible import write_tar

PRINT = ("objdump", "--disassemble", "--no-show-raw-insn", "--no-addresses")


def pack(linked, dist, number, when):
    """Writes a tarball of the texts."""
    with tempfile.TemporaryDirectory() as folder:
        for name in libraries.LIBRARIES:
            text = libraries.run(*PRINT, f"lib{name}.so", cwd=linked)
            libraries.write(text.split("\n"), folder, f"{name}.s")
        path = os.path.join(dist, f"liblrc-{number}-assembly.tar.gz")
        return [write_tar(path, folder, f"liblrc-{number}-assembly", when)]
