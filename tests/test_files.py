"""Runs `lrc` over files, and compares what it does to an own reader and writer of fragments.

These are made from docs/fragments.md. The cases are every set of up to four lost fragments of a
file of three stripes, damage at random places, each error, lengths about those of a block and of a
stripe, a full disk, and what can't be read or written.

`--cases N` says how many cases of random damage there are. They have the seeds from SEED on, and
SEED=fresh draws the first."""

import hashlib
import itertools
import json
import os
import random
import re
import resource
import shutil
import subprocess
import tempfile
from concurrent.futures import ThreadPoolExecutor
from pathlib import Path

import lrc
import pytest
from building import TOP

PROGRAM = Path(TOP, "crates", "lrc", "out", "lrc")
MEMORY = "/dev/shm" if os.path.isdir("/dev/shm") else None
PAGE = 4096
WIDTH = 64
ID = bytes(range(16))
CODES = {"12": "Wide", "6": "Small"}
PRODUCTS = [[lrc.product(a, b) for b in range(256)] for a in range(256)]


def run(*words, given=None, **more):
    words = [word if isinstance(word, bytes) else str(word) for word in words]
    more = {"capture_output": True, "timeout": 600, **more}
    return subprocess.run([PROGRAM, *words], input=given, **more)


# ---- a writer and a reader of fragments


def place(ident, fragment, stripe):
    return ident + fragment.to_bytes(8, "little") + stripe.to_bytes(8, "little")


def record(ident, fragment, stripe, block):
    return block + hashlib.sha256(place(ident, fragment, stripe) + block).digest()


def sum_of(weights, blocks):
    total = bytearray(len(blocks[0]))
    for weight, block in zip(weights, blocks):
        if weight:
            row = PRODUCTS[weight]
            total = bytearray(a ^ row[b] for a, b in zip(total, block))
    return bytes(total)


def blocks_of(code, data):
    """The blocks of a stripe: its data, cut into as many as the code has, and the parities."""
    count = lrc.data_fragments(code)
    width = len(data) // count
    blocks = [data[i * width : (i + 1) * width] for i in range(count)]
    return blocks + [sum_of(row[:count], blocks) for row in lrc.WEIGHTS[code]]


def page(code, fragment, width, length, ident, digests):
    fields = b"\x89LRC\r\n\x1a\n" + bytes([1, 0, 1, 0])
    fields += bytes([lrc.data_fragments(code), fragment, 1, 0])
    fields += width.to_bytes(4, "little") + bytes([32, 0, 0, 0]) + length.to_bytes(8, "little")
    fields += ident + b"".join(digests).ljust(512, b"\0")
    fields = fields.ljust(PAGE - 32, b"\0")
    return fields + hashlib.sha256(fields).digest()


def fragments_of(code, width, ident, content):
    """The files of the fragments of a file with this content."""
    size = width * lrc.data_fragments(code)
    records = [[] for _ in range(lrc.fragments(code))]
    for stripe, start in enumerate(range(0, len(content), size)):
        blocks = blocks_of(code, content[start : start + size].ljust(size, b"\0"))
        for f, block in enumerate(blocks):
            records[f].append(record(ident, f, stripe, block))
    digests = [hashlib.sha256(b"".join(r[-32:] for r in each)).digest() for each in records]
    files = []
    for f, each in enumerate(records):
        header = page(code, f, width, len(content), ident, digests)
        files.append(header + b"".join(each) + header)
    return files


def has_header(whole, found):
    return found[:PAGE] == whole[:PAGE] or found[-PAGE:] == whole[-PAGE:]


def lost_sets(wholes, found, stripes):
    """For each stripe the fragments whose record is not the one that was written, as far as a
    reader can see: without a header nothing of a file is known."""
    length = WIDTH + 32
    sets = []
    for stripe in range(stripes):
        at = PAGE + stripe * length
        sets.append(
            frozenset(
                f
                for f, whole in enumerate(wholes)
                if f not in found
                or not has_header(whole, found[f])
                or found[f][at : at + length] != whole[at : at + length]
            )
        )
    return sets


def open_of(code, lost):
    return frozenset(f for f in lost if lrc.is_open(code, lost, f))


# ---- the tests


@pytest.fixture
def folder():
    """A new folder, in memory if there is a place for it."""
    with tempfile.TemporaryDirectory(dir=MEMORY) as path:
        yield Path(path)


def write(path, content):
    path.write_bytes(content)
    return path


def fragment_paths(folder, code="12", name="film"):
    return [folder / f"{name}.{f:02}.lrc" for f in range(lrc.fragments(CODES[code]))]


def split(folder, content, *words, code="12"):
    """Writes a file and its fragments. Returns the fragments' paths."""
    path = write(folder / "film", content)
    named = ["--id", ID.hex(), "--code", code, *words]
    ran = run("split", path, "--to", folder, "--width", WIDTH, *named)
    assert ran.returncode == 0, ran.stderr
    return fragment_paths(folder, code)


@pytest.mark.parametrize("length", [0, 1, 5000])
@pytest.mark.parametrize("code", CODES)
def test_format(folder, code, length):
    """The fragments are those of the page about the format."""
    content = random.Random(length).randbytes(length)
    wholes = fragments_of(CODES[code], WIDTH, ID, content)
    assert [path.read_bytes() for path in split(folder, content, code=code)] == wholes


STRIPE = {code: WIDTH * lrc.data_fragments(name) for code, name in CODES.items()}


@pytest.mark.parametrize("lost", [[], [0, 7]])
@pytest.mark.parametrize(
    "code, length",
    [
        (code, length)
        for code, stripe in STRIPE.items()
        for about in (0, WIDTH, stripe)
        for length in (about - 1, about, about + 1, 40 * stripe + 3)
        if length >= 0
    ],
)
def test_lengths(folder, code, length, lost):
    """Files of lengths about those of a block and a stripe come back, and so do their parts."""
    content = random.Random(length).randbytes(length)
    paths = split(folder, content, code=code)
    left = [path for f, path in enumerate(paths) if f not in lost]
    check_ranges(folder, left, content, 1 if lost else 0)


def check_ranges(folder, left, content, status):
    length = len(content)
    middle = length // 2
    ranges = {(0, length), (middle, middle), (middle, length), (min(1, length), middle + 1)}
    for start, end in ranges:
        if start <= end <= length:
            out = folder / "out"
            ran = run("join", *left, "--to", out, "--force", "--range", f"{start}-{end}")
            assert ran.returncode == status, (start, end, ran.stderr)
            assert out.read_bytes() == content[start:end], length
    ran = run("join", *left, "--to", "-", "--range", f"{middle}-")
    assert ran.stdout == content[middle:], length


def check_set(folder, paths, wholes, content, lost):
    """One set of lost fragments: what verify, join and repair do is what the code allows."""
    left = [path for f, path in enumerate(paths) if f not in lost]
    data = range(lrc.data_fragments("Wide"))
    is_open = open_of("Wide", lost)
    status = 2 if any(f in data for f in is_open) else 1 if lost else 0
    out = folder / ("-".join(map(str, sorted(lost))) or "none")
    out.mkdir()
    ran = run("verify", "--threads", 1, *left)
    assert ran.returncode == status, sorted(lost)
    film = out / "film"
    ran = run("join", "--threads", 1, *left, "--to", film)
    assert ran.returncode == status, sorted(lost)
    assert film.exists() == (status < 2), sorted(lost)
    assert status == 2 or film.read_bytes() == content, sorted(lost)
    if lost:
        ran = run("repair", "--threads", 1, *left, "--to", out)
        assert ran.returncode == (2 if is_open else 0), sorted(lost)
        made = fragment_paths(out)
        for f in lost:
            assert made[f].exists() == (f not in is_open), sorted(lost)
            assert f in is_open or made[f].read_bytes() == wholes[f], sorted(lost)
    shutil.rmtree(out)


def side_by_side(check, cases):
    """Checks all cases, as many at once as processors."""
    with ThreadPoolExecutor(len(os.sched_getaffinity(0))) as pool:
        assert list(pool.map(check, cases))


def test_sets(folder):
    """Every set of up to four lost fragments of sixteen."""
    content = random.Random(3).randbytes(3 * 12 * WIDTH - 100)
    sets = [
        frozenset(lost) for size in range(5) for lost in itertools.combinations(range(16), size)
    ]
    paths = split(folder, content)
    wholes = [path.read_bytes() for path in paths]
    side_by_side(lambda lost: check_set(folder, paths, wholes, content, lost), sets)


def damage(chance, found):
    """Damages the files of fragments, by their numbers, in one way."""
    f = chance.choice(sorted(found))
    kind = chance.randrange(6)
    if kind == 0:
        del found[f]
    elif kind == 1:
        found[f] = found[f][: chance.randrange(len(found[f]))]
    elif kind == 2:
        found[f] = found[f] + chance.randbytes(chance.randrange(1, 200))
    elif kind == 3:
        start = chance.randrange(len(found[f]))
        torn = bytearray(found[f])
        torn[start : start + 300] = bytes(len(torn[start : start + 300]))
        found[f] = bytes(torn)
    else:
        torn = bytearray(found[f])
        for _ in range(chance.randrange(1, 4)):
            torn[chance.randrange(len(torn))] ^= 1 << chance.randrange(8)
        found[f] = bytes(torn)


def check_damage(seed, wholes, content):
    """One case of damage: no wrong byte under the status 0 or 1, and the status is the one that an
    own reader of the fragments comes to."""
    chance = random.Random(seed)
    found = dict(enumerate(wholes))
    for _ in range(chance.choice((1, 1, 2, 3, 4, 6))):
        if found:
            damage(chance, found)
    stripes = -(-len(content) // (12 * WIDTH))
    sets = lost_sets(wholes, found, stripes)
    is_lost = any(any(f < 12 for f in open_of("Wide", lost)) for lost in sets)
    is_whole = found == dict(enumerate(wholes))
    has_any = any(has_header(wholes[f], each) for f, each in found.items())
    expected = 3 if not has_any else 2 if is_lost else 0 if is_whole else 1
    with tempfile.TemporaryDirectory(dir=MEMORY) as path:
        folder = Path(path)
        paths = [
            write(path, found[f]) for f, path in enumerate(fragment_paths(folder)) if f in found
        ]
        chance.shuffle(paths)
        ran = run("verify", *paths)
        assert ran.returncode == expected, seed
        out = folder / "out"
        ran = run("join", *paths, "--to", out)
        assert (ran.returncode < 2) == (expected < 2), seed
        assert out.exists() == (ran.returncode < 2), seed
        assert ran.returncode >= 2 or out.read_bytes() == content, seed
        check_repair(seed, folder, wholes, expected)


def check_repair(seed, folder, wholes, status):
    ran = run("repair", "--check", folder)
    is_done = ran.returncode == 0
    assert is_done or status >= 2 or ran.returncode == 2, seed
    assert not list(folder.glob("*.part")), seed
    assert not is_done or [path.read_bytes() for path in fragment_paths(folder)] == wholes, seed


def test_chance(pytestconfig):
    """Damage at random places."""
    cases, first = int(pytestconfig.getoption("cases")), os.environ.get("SEED", "1")
    first = random.SystemRandom().randrange(1 << 32) if first == "fresh" else int(first)
    content = random.Random(5).randbytes(9 * 12 * WIDTH + 17)
    wholes = fragments_of("Wide", WIDTH, ID, content)
    print(cases, "cases of random damage, the seeds from", first, "on", flush=True)
    side_by_side(lambda seed: check_damage(seed, wholes, content), range(first, first + cases))


ERRORS = [
    # words, the status, and what stands in the output or on standard error
    ([], 3, "a command is needed"),
    (["split", "film"], 3, "--to"),
    (["split", "none", "--to", "."], 3, "can't read none"),
    (["split", "film", "--to", "nowhere"], 3, "can't write to the folder nowhere: No such file"),
    (["split", "film", "--to", "film"], 3, "can't write to the folder film: not a directory"),
    (["split", "film", "--to", ".", "--width", "65"], 3, "multiple of 64"),
    (["split", "film", "--to", ".", "--width", "0"], 3, "--width"),
    (["split", "film", "--to", ".", "--code", "7"], 3, "--code is 12 or 6"),
    (["split", "film", "--to", ".", "--id", "12"], 3, "--id has 32 hexadecimal digits"),
    (["split", "film", "film", "--to", ".", "--name", "x"], 3, "--name and --id are for one file"),
    (["split", "film", "--to", "made"], 3, "made/film.00.lrc exists already; --force replaces it"),
    (["verify"], 3, "FRAGMENT"),
    (["verify", "none"], 3, "can't read none: No such file"),
    (["verify", "film"], 3, "no fragment is among the files"),
    (["verify", "made", "--expect", "12"], 3, "--expect has 64 hexadecimal digits"),
    (["verify", "made", "--expect", "00" * 32], 2, "expected " + "00" * 32),
    (["verify", "made", "other"], 3, "of several sets"),
    (["verify", "made", "--id", "ff" * 16], 3, "no fragment is among the files"),
    (["join", "made"], 3, "--to"),
    (["join", "made", "--to", "film"], 3, "film exists already; --force replaces it"),
    (["join", "made", "--to", "out", "--range", "x"], 3, "--range is A-B or A-"),
    (["join", "made", "--to", "out", "--range", "9-3"], 3, "is not in a file of"),
    (["join", "made", "--to", "out", "--range", "0-99999999"], 3, "is not in a file of"),
    (["join", "made", "--to", "nowhere/out"], 3, "can't write to the folder nowhere: No such file"),
    (["join", "made", "--to", "/dev/full/x"], 3, "to the folder /dev/full: not a directory"),
    (["repair", "made", "--to", "nowhere"], 3, "can't write to the folder nowhere: No such file"),
    (["--help"], 0, "Exit status"),
    (["--version"], 0, "lrc 0.1.0"),
    (["verify", "made"], 0, "whole: any 3 further fragments may be lost"),
    (["verify", "made", "other/film.00.lrc"], 0, "not of the set: other/film.00.lrc: of the set"),
    (["verify", "made", "film"], 0, "not of the set: film: no header is whole"),
    (["show", "made"], 0, "# whole"),
    (["repair", "made"], 0, "all fragments are whole"),
    (["verify", "made", "mad"], 0, "not of the set: mad: there is no such file"),
    (["show", "mad", "made"], 0, "not of the set: mad: there is no such file"),
    (["repair", "made", "mad"], 3, "there is no file or folder mad: correct the word"),
    (["repair", "made", "film"], 0, "not of the set: film: no header is whole"),
    (["repair", "made", "film.16.lrc"], 0, "set: film.16.lrc: there is no such file"),
    (["join", "made", "mad", "--to", "-", "--range", "0-0"], 0, "set: mad: there is no such file"),
]


def test_errors(folder):
    """Each error has its status and names what is wrong."""
    write(folder / "film", random.Random(1).randbytes(2000))
    for name in ("made", "other"):
        (folder / name).mkdir()
        ran = run("split", "film", "--to", name, "--width", WIDTH, cwd=folder)
        assert ran.returncode == 0, ran.stderr
    for words, status, text in ERRORS:
        ran = run(*words, cwd=folder)
        printed = (ran.stdout + ran.stderr).decode()
        assert ran.returncode == status, (words, printed)
        assert text in printed, words
    assert sorted(os.listdir(folder)) == ["film", "made", "other"]


def test_mixtures(folder):
    """Files that are swapped, renamed, cut off and left over, and reads of standard input."""
    content = random.Random(2).randbytes(5 * 12 * WIDTH)
    paths = split(folder, content)
    wholes = [path.read_bytes() for path in paths]
    paths[3].rename(folder / "aside")
    paths[4].rename(paths[3])
    (folder / "aside").rename(paths[4])
    assert run("verify", *paths).returncode == 0
    printed = run("verify", *paths).stdout.decode()
    assert "whole: any 3 further fragments may be lost" in printed
    assert wholes[0][PAGE - 32 : PAGE].hex() in printed
    # records of another stripe and of another fragment are damage
    length = WIDTH + 32
    first = wholes[5][PAGE : PAGE + length]
    write(paths[5], wholes[5][: PAGE + length] + first + wholes[5][PAGE + 2 * length :])
    assert run("verify", *paths).returncode == 1
    write(paths[5], wholes[5][:PAGE] + wholes[6][PAGE:-PAGE] + wholes[5][-PAGE:])
    printed = run("verify", *paths).stdout.decode()
    assert "5 of 5 records, the first in stripe 0" in printed
    # what an interrupted run left is replaced
    part = write(folder / "film.05.lrc.part", b"rest")
    assert run("repair", *paths).returncode == 0
    assert paths[5].read_bytes() == wholes[5] and not part.exists()
    # a local repair reads the other six of the group
    paths[1].unlink()
    ran = run("repair", *paths)
    said = f"{6 * 5 * length} bytes read, of the fragments 0, 2, 3, 4, 5, 12\n"
    assert ran.returncode == 0 and said.encode() in ran.stdout
    piped = run("split", "-", "--to", folder, "--width", WIDTH, "--name", "pipe", given=content)
    assert piped.returncode == 0, piped.stderr
    ran = run("join", *fragment_paths(folder, name="pipe"), "--to", "-")
    assert ran.stdout == content


# ---- what can't be read or written


def fails(ran, *texts):
    """A run that ended with the status 3 and these texts on standard error."""
    said = ran.stderr.decode()
    assert ran.returncode == 3, said
    for text in texts:
        assert text in said


def made_in(folder, content=None):
    """A file and its fragments in a folder below. Returns the folder and the fragments' paths."""
    made = folder / "made"
    made.mkdir()
    paths = split(made, content or random.Random(4).randbytes(9 * 12 * WIDTH))
    (made / "film").unlink()
    return made, paths


def limited():
    """No file of this process gets longer than 8 KiB."""
    resource.setrlimit(resource.RLIMIT_FSIZE, (8192, 8192))


def test_limit(folder):
    """A write that fails in the middle leaves nothing, and the fragments as they were."""
    made, paths = made_in(folder, random.Random(4).randbytes(99 * 12 * WIDTH))
    wholes = [path.read_bytes() for path in paths]
    film = write(folder / "film", bytes(99 * 12 * WIDTH))
    # a signal would end the program: Python ignores it, and so does what it starts
    small = {"preexec_fn": limited, "restore_signals": False}
    fails(run("split", film, "--to", folder, "--width", WIDTH, **small), "film.", "too large")
    fails(run("join", made, "--to", folder / "out", **small), "out", "too large")
    paths[3].unlink()
    fails(run("repair", made, **small), "film.03.lrc", "too large")
    write(paths[3], wholes[3][:5000])
    fails(run("repair", made, **small), "film.03.lrc", "too large")
    assert paths[3].read_bytes() == wholes[3][:5000]
    assert sorted(os.listdir(folder)) == ["film", "made"]
    assert len(os.listdir(made)) == 16


# Runs in a namespace of mounts: PROGRAM FOLDER. Prints the files that a full disk keeps.
FULL = """
mount -t tmpfs -o size=128k none "$2/small"
"$1" split "$2/film" --to "$2/small" --width 64 && exit 9
[ $? = 3 ] || exit 8
ls -A "$2/small"
"$1" join "$2/made" --to "$2/small/out" && exit 7
[ $? = 3 ] || exit 6
ls -A "$2/small"
"$1" split "$2/film" --to "$2/made" "$2/small" --width 64 --name other && exit 5
[ $? = 3 ] || exit 4
ls -A "$2/small"
"""


def test_full_disk(folder):
    """A full disk ends the command, and nothing is left on it."""
    word = ["unshare", "--mount", "--propagation", "private"]
    command = [*word, "sh", "-c", "mount -t tmpfs none /mnt"]
    if not shutil.which("unshare") or subprocess.run(command, capture_output=True).returncode:
        pytest.skip("no mount can be had")
    made, _ = made_in(folder, bytes(300_000))
    write(folder / "film", bytes(300_000))
    (folder / "small").mkdir()
    command = [*word, "sh", "-c", FULL, "sh", PROGRAM, folder]
    ran = subprocess.run(command, capture_output=True)
    said = ran.stderr.decode()
    assert ran.returncode == 0 and not ran.stdout, said
    assert said.count("No space left on device") == 3
    assert len(os.listdir(made)) == 16


def test_full_output(folder):
    """A full standard output is an error of every command that prints."""
    made, _ = made_in(folder)
    commands = (["verify"], ["show"], ["repair"], ["verify", "--json"], ["join", "--to", "-"])
    with open("/dev/full", "wb") as full:
        for first, *more in commands:
            ran = subprocess.run([PROGRAM, first, made, *more], stdout=full)
            assert ran.returncode == 3, first


def test_folders(folder):
    """A fragment that is a folder is none, and what stands in its place is named."""
    made, paths = made_in(folder)
    whole = paths[3].read_bytes()
    paths[3].unlink()
    paths[3].mkdir()
    ran = run("verify", made)
    assert ran.returncode == 1
    assert f"not of the set: {paths[3]}: " in ran.stdout.decode()
    fails(run("repair", made), f"can't name {paths[3]}: Is a directory")
    assert len(os.listdir(made)) == 16
    (folder / "out.part").mkdir()
    fails(run("join", made, "--to", folder / "out"), "out.part: Is a directory")
    os.rmdir(paths[3])
    assert run("repair", made).returncode == 0
    assert paths[3].read_bytes() == whole


def test_shared_disks(folder):
    """As docs/files.md names eight disks, each has two fragments, and any two may be lost."""
    page = Path(TOP, "docs", "files.md").read_text()
    commands = re.findall(r"lrc split film\.mkv --to(.*?)\n\n", page, re.S)
    (named,) = [it for it in map(re.compile(r"disk\d").findall, commands) if len(set(it)) == 8]
    disks = {folder / it for it in named}
    for disk in disks:
        disk.mkdir()
    film = write(folder / "film", os.urandom(20_000))
    assert run("split", film, "--to", *(folder / it for it in named)).returncode == 0
    for lost in itertools.combinations(disks, 2):
        ran = run("join", *disks.difference(lost), "--to", "-")
        assert ran.returncode in (0, 1) and ran.stdout == film.read_bytes(), lost


def test_rights(folder):
    """What may not be read counts as lost, and is named; what may not be written is an error."""
    nobody = {"user": 65534, "group": 65534, "extra_groups": []}
    user = nobody if os.getuid() == 0 else {}  # root may read all
    os.chmod(folder, 0o755)
    made, paths = made_in(folder)
    program = shutil.copy(PROGRAM, folder)
    if subprocess.run([program, "--version"], **user).returncode:
        pytest.skip("another user can't run the program")
    as_user = {"executable": program, **user}
    os.chmod(paths[5], 0)
    os.chmod(made, 0o555)
    ran = run("verify", made, **as_user)
    assert ran.returncode == 1, ran.stderr
    said = f"not of the set: {paths[5]}: can't be read: Permission denied"
    assert said in ran.stdout.decode()
    fails(run("verify", paths[5], **as_user), str(paths[5]))
    refused = ("can't create ", str(made), ": Permission denied")
    fails(run("repair", made, **as_user), *refused)
    fails(run("join", made, "--to", made / "film", **as_user), *refused)
    fails(run("split", paths[0], "--to", made, **as_user), *refused)
    assert len(os.listdir(made)) == 16
    os.chmod(made, 0)
    fails(run("verify", made, **as_user), f"can't read {made}: Permission denied")
    os.chmod(made, 0o755)


def test_readme(folder):
    """The commands of README.md print the lines below them, and are those of demo_files."""
    section = Path(TOP, "README.md").read_text("utf-8")
    section = section.split("### A file in fragments", 1)[1].split("\n### ", 1)[0]
    shown = re.findall("^    (.*)$", section, re.M)
    commands = [it for it in shown if re.match("(mkdir|seq|lrc|rm|cmp) ", it)]
    lines = [it for it in shown if it not in commands and not re.match(r"tools/|\(cd ", it)]
    demo = Path(TOP, "crates", "demo_files", "stdout").read_text("utf-8")
    typed = [it.partition(" --id ")[0] for it in re.findall(r"^\$ (.*)$", demo, re.M)]
    assert typed == commands
    path = {**os.environ, "PATH": f"{PROGRAM.parent}:{os.environ['PATH']}"}
    more = {"cwd": folder, "env": path, "stdout": subprocess.PIPE, "text": True}
    printed = ""
    for command in commands:
        ran = subprocess.run(["bash", "-c", command], **more)
        is_degraded = command in ("lrc verify a b c d", "lrc show a b c d")
        assert ran.returncode == is_degraded, command
        printed += ran.stdout
    assert len(commands) == 9 and len(lines) == 8
    assert "\n".join(lines[:6]) in printed
    assert "\n".join(lines[6:]) in printed


# ---- objects


SET_KEYS = (
    "command status set digest expected code bytes width stripes fragments again others"
    " unrecoverable margin rows"
).split()
KEYS = {
    "split": "command status name set digest code bytes width stripes fragments".split(),
    "verify": SET_KEYS,
    "show": SET_KEYS,
    "repair": (
        "command status set written unrecoverable bytes_read read_from is_checked others"
    ).split(),
    "join": "command status set path bytes bytes_read rebuilt_stripes stopped others".split(),
}
STATE_KEYS = "number state path details lost_records first_lost_stripe".split()


def objects(*words, status=0, **more):
    """The objects that a command prints with --json."""
    ran = run(*words, "--json", **more)
    assert ran.returncode == status, (words, ran.stderr)
    # not by splitlines, for which further signs end a line
    found = [json.loads(line) for line in ran.stdout.decode().split("\n") if line]
    for each in found:
        keys = ["command", "status", "error"] if each.get("status") == 3 else KEYS[words[0]]
        assert list(each) == keys, words
        assert each["command"] == words[0]
    assert found[-1]["status"] == status, words
    return found


def test_objects(folder):
    """What --json prints: the keys of docs/files.md, and what the text says."""
    content = random.Random(6).randbytes(5 * 12 * WIDTH)
    wholes = fragments_of("Wide", WIDTH, ID, content)
    film = write(folder / "film", content)
    named = ("--id", ID.hex(), "--width", WIDTH)
    (made,) = objects("split", film, "--to", folder, *named)
    paths = fragment_paths(folder)
    placed = [{"number": f, "path": str(path)} for f, path in enumerate(paths)]
    assert made["fragments"] == placed
    digest = wholes[0][PAGE - 32 : PAGE].hex()
    said = (made["set"], made["digest"], made["bytes"], made["width"], made["stripes"])
    assert said == (ID.hex(), digest, len(content), WIDTH, 5), made
    check_object_of_loss(folder, paths, wholes, digest)
    paths[8].unlink()
    out = folder / "out"
    (done,) = objects("join", folder, "--to", out, status=1)
    assert done["bytes"] == len(content) and done["path"] == str(out)
    assert done["rebuilt_stripes"] == 5 and done["stopped"] is None
    length = WIDTH + 32
    (done,) = objects("repair", f"{folder}x", *paths, status=3)
    assert "no file or folder" in done["error"]
    assert not paths[8].exists()
    (done,) = objects("repair", film, *paths)
    assert done["written"] == [placed[8]] and not done["is_checked"]
    assert done["others"] == [{"path": str(film), "reason": "no header is whole"}]
    said = (done["bytes_read"], done["read_from"])
    assert said == (6 * 5 * length, [6, 7, 9, 10, 11, 13]), done
    (done,) = objects("verify", folder, "--expect", "00" * 32, status=2)
    assert done["expected"] == "00" * 32 and done["margin"] == 3
    elsewhere = folder / "elsewhere"
    elsewhere.mkdir()
    found = objects("split", film, folder / "none", "--to", elsewhere, status=3)
    assert "No such file" in found[-1]["error"]


def check_object_of_loss(folder, paths, wholes, digest):
    """What verify and show say of a missing, a damaged and a cut fragment, and of other files."""
    length = WIDTH + 32
    paths[2].unlink()
    torn = bytearray(wholes[5])
    torn[PAGE + 3 * length] ^= 1
    write(paths[5], bytes(torn))
    write(paths[7], wholes[7][:-1])
    again = write(folder / "x.lrc", wholes[0])
    other = write(folder / "y.lrc", b"other")
    for command in ("verify", "show"):
        (found,) = objects(command, folder, status=1)
        assert found["digest"] == digest and found["expected"] is None, command
        states = {each["number"]: each for each in found["fragments"]}
        assert all(list(each) == STATE_KEYS for each in states.values()), command
        assert list(states[2].values()) == [2, "missing", None, None, 5, 0], command
        said = [5, "damaged", str(paths[5]), "1 of 5 records, the first in stripe 3", 1, 3]
        assert list(states[5].values()) == said, command
        cut = f"{len(wholes[7]) - 1} bytes, expected {len(wholes[7])}"
        assert list(states[7].values()) == [7, "damaged", str(paths[7]), cut, 0, None]
        assert list(states[0].values()) == [0, "whole", str(paths[0]), None, 0, None]
        assert found["again"] == [{"number": 0, "path": str(again)}], command
        assert found["others"] == [{"path": str(other), "reason": "no header is whole"}]
        lost = [[2], [2], [2], [2, 5], [2]]
        rows = [{"first_stripe": at, "stripes": 1, "lost": each} for at, each in enumerate(lost)]
        assert found["rows"] == rows and found["unrecoverable"] == [], command
        assert found["margin"] == 1, command
    again.unlink()
    other.unlink()
    (done,) = objects("repair", "--check", folder)
    written = [{"number": f, "path": str(paths[f])} for f in (2, 5, 7)]
    assert done["written"] == written and done["is_checked"]
    assert all(path.read_bytes() == whole for path, whole in zip(paths, wholes))


def test_object_of_end(folder):
    """What is unrecoverable, in each command."""
    made, paths = made_in(folder)
    for f in range(5):
        paths[f].unlink()
    lost = list(range(5))
    (found,) = objects("verify", made, status=2)
    assert found["margin"] is None
    assert found["unrecoverable"] == [{"first_stripe": 0, "stripes": 9, "lost": lost}]
    (done,) = objects("repair", made, status=2)
    assert done["unrecoverable"] == lost and done["written"] == []
    (done,) = objects("join", made, "--to", folder / "out", status=2)
    assert done["stopped"] == {"stripe": 0, "byte": 0, "lost": lost}


NAMES = ('a"b', "a\\b", "a\nb", "a\tb\x01", "\u00e9\u2028\U0001f600", "-", "a/b")


def test_names(folder):
    """Names with quotes, backslashes, line ends and other signs come back from JSON as they are. A
    name that is not UTF-8 is refused, as a word and in a folder."""
    content = random.Random(8).randbytes(700)
    for name in NAMES:
        to = folder / name
        to.mkdir(parents=True)
        film = write(to / f"{to.name}film", content)
        (made,) = objects("split", film, "--to", to, "--width", WIDTH)
        assert made["name"] == film.name
        assert made["fragments"][3]["path"] == f"{film}.03.lrc"
        other = write(to / f"{to.name}.lrc", b"")
        (found,) = objects("verify", to)
        assert [each["path"] for each in found["others"]] == [str(other)]
        os.remove(made["fragments"][3]["path"])
        (done,) = objects("repair", to)
        assert [each["path"] for each in done["written"]] == [f"{film}.03.lrc"]
        (done,) = objects("join", to, "--to", f"{film}2")
        assert done["path"] == f"{film}2" and Path(f"{film}2").read_bytes() == content
    to = folder / "bytes"
    to.mkdir()
    split(to, content)
    path = os.fsencode(to) + b"/\xff"
    write(Path(os.fsdecode(path + b".lrc")), b"")
    (found,) = objects("verify", to, status=3)
    assert found["error"] == f"can't read {to}: invalid filename"
    for command in (("verify", path + b".lrc"), ("split", path, "--to", to)):
        ran = run(*command, "--json")
        assert ran.stdout == b"", command
        fails(ran, "can't read the command line: ")
