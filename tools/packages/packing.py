"""Without the kit: all packages of a release, of what BUILT has."""

import os
import sys
import tempfile

import libraries
from packages import assembly, crates, debian, licence, record, tarball, wheel
from packages.reproducible import moment, settle, sha256

KINDS = ("deb", "wheel", "crate", "tar", "assembly")
SUMS = "SHA256SUMS"


def empty(dist):
    """Makes a folder for packages, and ends if older ones are there."""
    os.makedirs(dist, exist_ok=True)
    if os.listdir(dist):
        sys.exit(f"{dist} is not empty: name another folder, or remove it")


def write_records(built, dist, number):
    """Writes the provenance and the bill of materials, and warns of what they lack."""
    origin = record.provenance(built, number)
    commit = origin["packed"]["commit"]
    if origin["packed"]["changed"] or built["changed"]:
        print("note: files differ from those of the commit, so nobody can make these again")
    if not all(it["verdict"] for it in built["crates"]):
        print("note: the provenance has no verdicts: give --verdicts LOG to tools/package.py build")
    bill = record.bill_of_materials(built, number, commit)
    return [
        record.write_json(origin, dist, f"lrcstore-{number}.provenance.json"),
        record.write_json(bill, dist, f"lrcstore-{number}.cdx.json"),
    ]


def pack(source, dist, kinds, has_plugins, is_unlicensed):
    """Makes packages of these kinds. Their bytes depend on BUILT, the clone and the compiler."""
    licence.demand(is_unlicensed)
    if "deb" in kinds:
        debian.demand(has_plugins)
    if "wheel" in kinds:
        wheel.demand()
    built, number, when = record.read_record(source), libraries.version(), moment()
    empty(dist)
    settle(when)
    made = write_records(built, dist, number)
    with tempfile.TemporaryDirectory() as linked:
        for name in libraries.LIBRARIES:
            libraries.build(name, linked, source)
        if "deb" in kinds:
            made += debian.pack(source, linked, made[0], dist, number, when, has_plugins)
        if "wheel" in kinds:
            made += wheel.pack(source, linked, dist, number, when)
        if "crate" in kinds:
            made += crates.pack(linked, dist, number, when)
        if "tar" in kinds:
            made += tarball.pack(source, linked, made[0], dist, number, when)
        if "assembly" in kinds:
            made += assembly.pack(linked, dist, number, when)
    sums = [f"{sha256(it)}  {os.path.basename(it)}" for it in made]
    for path in [*made, libraries.write(sums, dist, SUMS)]:
        print(f"{os.path.getsize(path):>10}  {os.path.basename(path)}")
