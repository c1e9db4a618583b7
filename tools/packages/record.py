"""What is known of a release: BUILT's own record, the provenance that packages have, and the bill
of materials."""

import hashlib
import json
import os
import re
import shutil

import build
import libraries
from packages.reproducible import git, sha256

RECORD = "built.json"
PROGRAMS, LIBC = ("lrcstore", "lrc"), "liblibc_c.a"
ARCHIVES = {
    f"lib{it.crate}_{cpu}.a": (it.crate, cpu)
    for it in libraries.LIBRARIES.values()
    for cpu in it.cpus
}
FILES = (*PROGRAMS, *ARCHIVES, LIBC)
# Of the kit, in each archive and in the programs: no crate names them all.
ALWAYS_LINKED = ("core", "std", "std_alloc", "std_heap", "libc")


def crates():
    """The crates of the programs and of both libraries, from the bottom up."""
    wanted = {it for top in tops() for it in build.below(top)}
    return [it for it in build.dependencies() if it in wanted]


def tops():
    return (*PROGRAMS, *(it.crate for it in libraries.LIBRARIES.values()))


def sources(crate):
    """The checksum of a crate's sources: of the lines that sha256sum prints of its files, sorted,
    from the crate's folder."""
    folder = os.path.join(libraries.TOP, "crates", crate)
    paths = sorted(os.path.relpath(it, folder) for it in build.sources_of([crate]))
    lines = (f"{sha256(os.path.join(folder, it))}  {it}\n" for it in paths)
    return hashlib.sha256("".join(lines).encode()).hexdigest()


def verdicts(log):
    """The prover's last line of each crate, of what `rt ci` has printed. Those of tests are left
    out, and those of crates that an earlier run has proved are not there."""
    found, crate = {}, None
    for line in log.splitlines():
        if line.startswith("== "):
            named = re.fullmatch(r"== (\w+)", line)
            crate = named.group(1) if named else None
        elif line.startswith("logic=proved ") and crate:
            found[crate] = line
    return found


def first_line(command, *words):
    """The first line that a command prints, or None if it isn't here."""
    there = shutil.which(command)
    return libraries.run(there, *words).splitlines()[0] if there else None


def linkers():
    """The compiler and linker of this machine, by which libraries are made of the archives."""
    return {it: first_line(it, "--version") for it in ("gcc", "ld")}


def compilers():
    """These, the kit, and the compilers that the kit brings."""
    kit = first_line("rt", "version")
    found = {"kit": kit, **linkers()}
    if kit:
        page = libraries.run("rt", "doc").strip()
        clang = os.path.join(os.path.dirname(page), "toolchain", "bin", "clang")
        found["clang"] = first_line(clang, "--version")
    return found


def write_json(record, *path):
    return libraries.write([json.dumps(record, indent=1)], *path)


def read_record(folder):
    """The record of BUILT, once its files and the clone's sources are those that it names."""
    path = os.path.join(folder, RECORD)
    if not os.path.exists(path):
        raise SystemExit(f"no {path}: tools/package.py build makes it")
    with open(path, encoding="utf-8") as file:
        record = json.load(file)
    wrong = [it for it in FILES if not is_in(folder, record, it)]
    if wrong:
        raise SystemExit(f"{folder}: {RECORD} has other checksums than {', '.join(wrong)}")
    listed = {it["crate"]: it["sources"] for it in record["crates"]}
    wrong = [it for it in crates() if listed.get(it) != sources(it)]
    if wrong:
        raise SystemExit(f"{folder} was built from other sources of {', '.join(wrong)}")
    return record


def is_in(folder, record, file):
    path = os.path.join(folder, file)
    return os.path.exists(path) and record["files"].get(file) == sha256(path)


def provenance(record, number):
    """What the packages come from: BUILT's record, and where it was packed."""
    return {
        "version": number,
        "packed": {
            "commit": git("rev-parse", "HEAD"),
            "changed": bool(git("status", "--porcelain", "--untracked-files=no")),
            **linkers(),
        },
        "built": record,
    }


def component(name, reference, number, more):
    return {"type": "library", "name": name, "version": number, "bom-ref": reference, **more}


def bill_of_materials(record, number, commit):
    """The crates and the libraries of the kit that are linked in, and which uses which, in the
    words of CycloneDX."""
    uses, own = build.dependencies(), crates()
    listed = {it["crate"]: it["sources"] for it in record["crates"]}
    of_kit = sorted({*ALWAYS_LINKED, *(it for one in own for it in uses[one] if it not in uses)})
    kit = ((record["compilers"].get("kit") or "").split() or [""])[0]
    reference = {**{it: f"crate/{it}" for it in own}, **{it: f"kit/{it}" for it in of_kit}}
    hashes = {it: [{"alg": "SHA-256", "content": listed[it]}] for it in own}
    parts = [component(it, reference[it], number, {"hashes": hashes[it]}) for it in own]
    parts += [component(f"rattle-{it}", reference[it], kit, {}) for it in of_kit]
    whole = {"type": "application", "name": "lrcstore", "version": number, "bom-ref": "lrcstore"}
    edges = {"lrcstore": sorted(reference[it] for it in tops())}
    edges.update({reference[it]: sorted(reference[each] for each in uses[it]) for it in own})
    return {
        "bomFormat": "CycloneDX",
        "specVersion": "1.5",
        "version": 1,
        "metadata": {
            "component": whole,
            "properties": [{"name": "lrcstore:commit", "value": commit}],
        },
        "components": parts,
        "dependencies": [{"ref": it, "dependsOn": below} for it, below in edges.items()],
    }
