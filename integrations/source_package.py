"""Debian's source packages, for tests that build upstream's own programs of them. Nothing of a
source stays: all is in a temporary folder."""

import os
import re
import shlex
import subprocess
from pathlib import Path


def run(*words, **options):
    return subprocess.check_output(words, text=True, **options)


def version_of(package):
    """The version of the source of an installed package, as 20.2.4+ds-2."""
    return run("dpkg-query", "-W", "-f", "${source:Version}", package)


def fetch(folder, source, package):
    """The archive of the source of an installed package. apt compares its checksum with the one in
    the signed list. The system's own lists stay as they are: /etc/apt/sources.list names the
    archives."""
    sources = Path("/etc/apt/sources.list").read_text("utf-8")
    os.makedirs(f"{folder}/lists/partial")
    Path(folder, "sources.list").write_text(re.sub(r"(?m)^deb ", "deb-src ", sources), "utf-8")
    apt = ["-o", f"Dir::Etc::SourceList={folder}/sources.list", "-o", "Dir::Etc::SourceParts=-"]
    apt += ["-o", f"Dir::State::Lists={folder}/lists", "-o", "APT::Sandbox::User=root"]
    run("apt-get", *apt, "update")
    printed = run("apt-get", *apt, "source", "--print-uris", f"{source}={version_of(package)}")
    line = next(line for line in printed.splitlines() if ".orig.tar" in line)
    address, name, _, checksum = shlex.split(line)
    run("/usr/lib/apt/apt-helper", *apt, "download-file", address, f"{folder}/{name}", checksum)
    return f"{folder}/{name}"
