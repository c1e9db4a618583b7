"""The wheel of the Python package, for Python 3.11 and later. Its extension modules have their
libraries beside them, so that they load these. It has the program `lrc` too."""

import base64
import hashlib
import os
import re
import sys
import tempfile

import libraries
import python_extension
from installation import ALIAS, PACKAGE
from packages import licence
from packages.reproducible import read_bytes, write_zip

# What pip puts into the folder of an environment's programs.
PROGRAM = "lrc"
SUMMARY = "In-memory blob store in the Local Reconstruction Code LRC(12,2,2), and its coder"
# The oldest glibc that a wheel's tag names: pip knows no older one by numbers.
OLDEST = (2, 17)
# Which Pythons it serves: those of the extension modules' stable ABI.
PYTHONS = "cp{}{}-abi3".format(*python_extension.OLDEST)


def glibc_of(*files):
    """The newest version of glibc that the files need, as (2, 17)."""
    printed = "".join(libraries.run("objdump", "-T", it) for it in files)
    found = re.findall(r"\bGLIBC_(\d+)\.(\d+)", printed)
    return max([OLDEST, *((int(major), int(minor)) for major, minor in found)])


def described(number, tag):
    """The texts by which pip knows the wheel, by their names."""
    text, python = licence.text(), "{}.{}".format(*python_extension.OLDEST)
    license_line = "License-File: LICENSE\n" if text else ""
    return {
        "METADATA": f"Metadata-Version: 2.1\nName: lrcstore\nVersion: {number}\n"
        f"Summary: {SUMMARY}\nRequires-Python: >={python}\n{license_line}"
        "Classifier: Operating System :: POSIX :: Linux\n",
        "WHEEL": "Wheel-Version: 1.0\nGenerator: tools/package.py\nRoot-Is-Purelib: false\n"
        f"Tag: {tag}\n",
        "top_level.txt": f"{ALIAS}\n{PACKAGE}\n",
        **({"LICENSE": text} if text else {}),
    }


def recorded(files):
    """The lines of RECORD: each file with its checksum and length."""
    for name, data in files.items():
        digest = base64.urlsafe_b64encode(hashlib.sha256(data).digest()).rstrip(b"=").decode()
        yield f"{name},sha256={digest},{len(data)}\n"


def demand():
    """Ends if the wheel can't be made here."""
    if not os.path.exists(python_extension.header()):
        sys.exit(f"the wheel needs python3-dev: no {python_extension.header()}")


def modules(linked, folder):
    """The extension modules, each of which looks for its library where the wheel has it."""
    for name in python_extension.MODULES:
        yield python_extension.build(name, linked, folder, "$ORIGIN")


def pack(source, linked, dist, number, when):
    """Writes the wheel of a program in BUILT and of the libraries in a folder."""
    python = os.path.join(libraries.TOP, "bindings", "python")
    files = {f"{ALIAS}.py": read_bytes(python, f"{ALIAS}.py")}
    for name in libraries.LIBRARIES:
        files[f"{PACKAGE}/{libraries.soname(name)}"] = read_bytes(linked, f"lib{name}.so")
    for file in sorted(os.listdir(os.path.join(python, PACKAGE))):
        if file.endswith((".py", ".pyi", ".typed")):
            files[f"{PACKAGE}/{file}"] = read_bytes(python, PACKAGE, file)
    with tempfile.TemporaryDirectory() as folder:
        binaries = [os.path.join(linked, f"lib{it}.so") for it in libraries.LIBRARIES]
        for built in modules(linked, folder):
            binaries.append(built)
            files[f"{PACKAGE}/{os.path.basename(built)}"] = read_bytes(built)
        binaries.append(os.path.join(source, PROGRAM))
        files[f"lrcstore-{number}.data/scripts/{PROGRAM}"] = read_bytes(binaries[-1])
        tag = "{}-manylinux_{}_{}_x86_64".format(PYTHONS, *glibc_of(*binaries))
    info = f"lrcstore-{number}.dist-info"
    for name, text in described(number, tag).items():
        files[f"{info}/{name}"] = text.encode()
    files[f"{info}/RECORD"] = "".join([*recorded(files), f"{info}/RECORD,,\n"]).encode()
    return [write_zip(os.path.join(dist, f"lrcstore-{number}-{tag}.whl"), files, when)]
