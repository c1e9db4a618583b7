"""What tests/quick.sh tests of the crates, without a proof kept: the form of their sources by the
kit's own command, the program and all scripts by `rt try`, and the proof and the mutants of
`gf256`."""

import glob
import os
import re

from building import TOP, output, run

EXAMPLES = os.path.join(TOP, "crates", "test_examples")


def test_form_of_rattle():
    kit = os.path.dirname(output("rt", "doc").strip())
    files = output("git", "ls-files", "-z", "crates/*.rt", "crates/*.antt").split("\0")[:-1]
    run(f"{kit}/bin/rattle", "fmt", "--check", *files)


def test_program():
    """The first command of README.md for sources prints the lines that stand there."""
    with open(f"{TOP}/README.md", encoding="utf-8") as page:
        text = page.read()
    command = re.search(r"^    \(cd crates/lrcstore && (rt try .*)\)$", text, re.M).group(1)
    shown = re.search(r"^    1 stored 1\n(?:    .*\n)*?    lawful yes\n", text, re.M).group()
    printed = output("bash", "-c", command, cwd=f"{TOP}/crates/lrcstore")
    assert printed.startswith(re.sub("^    ", "", shown, flags=re.M))


def test_scripts():
    """Each script prints the text beside it, and each refused one its message."""
    found = sorted(glob.glob("**", root_dir=f"{EXAMPLES}/data", recursive=True))
    files = [it for it in found if os.path.isfile(f"{EXAMPLES}/data/{it}")]
    words = [word for it in files for word in ("--data", f"{it}=data/{it}")]
    with open(f"{EXAMPLES}/stdout", encoding="utf-8") as file:
        assert output("rt", "try", *words, cwd=EXAMPLES).startswith(file.read())


def test_proof_of_gf256():
    run(f"{TOP}/tools/rt_once.py", "check", cwd=f"{TOP}/crates/gf256")


def test_mutants_of_gf256():
    run("tools/rt_once.py", "must-fail", "gf256")
