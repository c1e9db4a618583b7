"""The Rust crates, each with its library in it. A crate is what `cargo package` would write, less
what depends on cargo's version. It is unpacked, and its folder given to cargo."""

import os
import shutil
import tempfile

import installation
import libraries
from packages import licence
from packages.reproducible import write_tar


def fill(name, linked, folder):
    """Puts the files of a crate into a folder."""
    source = os.path.join(libraries.TOP, "bindings", installation.RUST[name])
    for part in ("src", "examples"):
        shutil.copytree(os.path.join(source, part), os.path.join(folder, part))
    shutil.copy(os.path.join(source, "Cargo.toml"), folder)
    # build.rs of lrc_store includes that of lrc_coder, which is made for both
    shutil.copy(os.path.join(libraries.TOP, "bindings", "rust", "build.rs"), folder)
    shutil.copy(os.path.join(linked, f"lib{name}.a"), folder)
    if licence.text():
        shutil.copy(os.path.join(libraries.TOP, licence.FILE), folder)


def pack(linked, dist, number, when):
    """Writes both crates."""
    made = []
    for name in libraries.LIBRARIES:
        with tempfile.TemporaryDirectory() as room:
            folder = os.path.join(room, name)
            os.mkdir(folder)
            fill(name, linked, folder)
            path = os.path.join(dist, f"{name}-{number}.crate")
            made.append(write_tar(path, folder, f"{name}-{number}", when))
    return made
