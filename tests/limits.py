"""What lrcstore prints at its limits, with ample memory. tests/test_limits.py runs it, and
tests/store/limits.py makes the same calls of the library.

Each case is a script with its options, which is run by each of its numbers of workers. What it must
print is computed here, from the lost fragments that `tools/lrc.py` finds open and from the bytes
that were put. The entries of a round are compared in the order of each worker, those of a mend in
the order of its plan.
"""

import os
import random
import string
import subprocess
import sys
from collections import Counter, namedtuple
from itertools import groupby

TOP = os.path.dirname(os.path.dirname(os.path.abspath(__file__)))
PROGRAM = os.path.join(TOP, "crates", "lrcstore", "out", "lrcstore")
sys.path.insert(0, os.path.join(TOP, "tools"))
import history  # noqa: E402
import lrc  # noqa: E402
from history import CODES  # noqa: E402

MOST_STRIPES = 4096
# A longer blob is not read whole, since each byte is printed as two digits.
MOST_READ = 4 << 20
WORKERS = (1, 4, 16)
# Width and number of stripes. A blob of 4,096 stripes at the greatest width has 3 GiB.
SHAPES = [(1, 1), (1, 64), (1, 65), (1, 4096), (64, 1), (64, 64), (64, 65), (64, 4096), (65536, 1)]
SHAPES += [(65536, 4), (65536, 65)]
TRIMS = [0, 1, 2, 3, 64, 1000, 100_000]
NAMES = [0, 1, 2, 3, 5000]
MENDS = [0, 1, 2, 15, 16, 17, 64, 65, 4095, 4096, 4097, 9000]
ROWS = [1, 2, 63, 64, 65, 300]
LETTERS = (string.ascii_letters + string.digits + ".-").encode() * 4

Row = namedtuple("Row", "round worker op name a b", defaults=("", "", ""))
Entry = namedtuple("Entry", "round who call note")
Case = namedtuple("Case", "what words rows workers", defaults=([1],))


class Model:
    """The sequential specification with its journal and the bytes: the replies that a script
    prints."""

    def __init__(self, width, limit):
        self.replay, self.limit = history.Replay(width), limit
        self.data, self.journal, self.trimmed = {}, [], 0

    def reply(self, row):
        """What a row prints, and the change that it makes."""
        if row.op == "trim":
            return self.trim(int(row.a))
        if row.op == "mend":
            return self.mend(row)
        if row.op in CODES and self.is_too_long(row):
            return "too-long"
        if len(self.journal) == self.limit:
            return "full"
        note, text = self.step(row)
        call = [row.op, row.name]
        call += [str(len(row.b))] if row.op in CODES else [x for x in (row.a, row.b) if x != ""]
        self.journal.append(Entry(row.round, row.worker, " ".join(call), note))
        return note + text

    def is_too_long(self, row):
        blob = history.Blob(0, len(row.b), CODES[row.op], self.replay.width)
        return blob.stripes() > MOST_STRIPES

    def trim(self, keep):
        trimmed = max(0, len(self.journal) - keep)
        self.journal = self.journal[trimmed:]
        self.trimmed += trimmed
        return f"trimmed {trimmed}"

    def mend(self, row):
        counts = Counter()
        blobs = sorted(self.replay.blobs.items())
        for name, stripe, f in [(n, *at) for n, blob in blobs for at in sorted(blob.lost)]:
            repair = Row(row.round, 0, "repair", name, str(stripe), str(f))
            reply = self.reply(repair)
            if reply == "full":
                return reply
            counts[reply.split()[0]] += 1
        return f"mended {counts['repaired']} 0 0 {counts['unrecoverable']}"

    def step(self, row):
        """The note of a call, and what is printed behind it."""
        numbers = [len(row.b)] if row.op in CODES else [int(it) for it in row[4:] if it != ""]
        entry = history.Entry(0, row.worker, row.op, row.name, numbers, "")
        note = self.replay.note(entry)
        if row.op in CODES:
            self.data[row.name] = row.b
        return note, self.granted(row.name, *numbers) if note.startswith("granted") else ""

    def granted(self, name, start, length):
        """How many parts of a range are stored, how many are rebuilt, and the bytes."""
        blob = self.replay.blobs[name]
        parts = blob.covers(start, length)
        built = sum(at in blob.lost for at in parts)
        digits = self.data[name][start : start + length].hex() or "-"
        return f" {len(parts) - built} {built} {digits}"


def data_of(length):
    """So many letters and digits, with no short period."""
    bits = random.Random(length).getrandbits(8 * length + 8)
    return bits.to_bytes(length + 1, "little")[:length].translate(LETTERS)


def line_of(row):
    """A row's line in the script. Short blobs are written in digits."""
    a, b = row.a, row.b
    if row.op in CODES:
        a, b = ("hex", b.hex()) if len(b) < 100 else ("text", b.decode())
    return f"{row.round},{row.worker},{row.op},{row.name},{a},{b}\n"


def calls(*texts, name="a", round=1, worker=1):
    """Rows from texts as `lose 0 1`."""
    words = [text.split() for text in texts]
    return [Row(round, worker, op, name, *rest) for op, *rest in words]


def shape_rows(op, width, stripes):
    """Each call over a blob of so many stripes, the last one not filled by a byte."""
    data = lrc.data_fragments(CODES[op])
    length = stripes * data * width - 1
    last, end = stripes - 1, length - 1
    whole = f"read 0 {length}" if length <= MOST_READ else f"read {end - width} {width}"
    reads = [whole, "read 0 1", f"read {end} 1", f"read {length} 0", f"read {length} 1"]
    far = [f"lose {last} {f}" for f in range(data // 2)]
    rows = [Row(1, 1, op, "a", "", data_of(length))] + calls("stat", *reads)
    rows += calls("lose 0 0", "lose 0 0", f"lose {stripes} 0", f"lose 0 {data + 4}")
    rows += calls(f"lose {last} {data - 1}", f"lose {last} {data}", *reads, "stat")
    rows += calls("repair 0 0", "repair 0 0", f"repair {stripes} 0", "read 0 1")
    rows += calls(*far, f"repair {last} 0", f"read {end} 1", f"read {last * data * width} 1")
    rows += [Row(2, 0, "mend")] + calls(*reads, "stat", "delete", "read 0 1", round=3)
    return rows


def shapes():
    for width, stripes in SHAPES:
        for op in CODES:
            rows = shape_rows(op, width, stripes)
            yield Case(f"{op}, {stripes} stripes of width {width}", ["--width", width], rows)
    for op, code in CODES.items():
        most = MOST_STRIPES * lrc.data_fragments(code)
        rows = [Row(1, 1, op, "a", "", data_of(length)) for length in (most, most + 1, 1, 0)]
        yield Case(f"{op} at the most stripes and past them", [], rows + calls("stat", "read 0 0"))


def trims():
    """Journals of which so many entries are discarded: losses, and as many repairs by a mend."""
    for trimmed in TRIMS:
        puts = [Row(1, 1, "put", name, "", data_of(49152)) for name in "abcd"]
        each = trimmed // 8
        spots = [(j, f) for f in (12, 13, 14, 15) for j in range(MOST_STRIPES)][:each]
        rows = puts + [
            row for name in "abcd" for j, f in spots for row in calls(f"lose {j} {f}", name=name)
        ]
        rows += [Row(2, 0, "mend")] + calls(*["stat"] * (trimmed % 8), round=3)
        rows += [Row(3, 1, "trim", "", "4"), Row(3, 1, "trim", "", "4"), *calls("stat", round=3)]
        yield Case(f"a trim of {trimmed}", ["--limit", 1048576], rows)


def names():
    """A base and a journal of so many names."""
    for many in NAMES:
        named = [f"n{k}" for k in range(many)]
        rows = [Row(1, 1, "put", name, "", b"%x" % k) for k, name in enumerate(named)]
        rows += [row for name in named[::7] for row in calls("lose 0 12", name=name)]
        rows += [Row(1, 1, "trim", "", "0")]
        rows += [row for name in named[::3] for row in calls("stat", "read 0 1", name=name)]
        rows += [row for name in named[1::2] for row in calls("delete", "delete", name=name)]
        rows += [Row(2, 0, "mend"), Row(3, 1, "trim", "", "1")]
        rows += calls("stat", "read 0 1", name="n0", round=3)
        yield Case(f"{many} names", ["--limit", 65536, "--history"], rows)


def mends():
    """Mends of so many fragments, some of which are open, by each number of workers."""
    for many in MENDS:
        spots = [(j, f) for f in (5, 12, 14) for j in range(MOST_STRIPES)][:many]
        rows = [Row(1, 1, "put", "a", "", data_of(49152)), Row(1, 1, "put6", "b", "", b"ABCDEFG")]
        rows += calls(*(f"lose {j} {f}" for j, f in spots))
        rows += calls(*(f"lose 1 {f}" for f in (0, 1, 2, 6)), name="b") if many % 2 else []
        rows += [Row(2, 0, "mend"), Row(3, 0, "mend")]
        rows += calls("stat", "read 0 49152", round=4) + calls("stat", name="b", round=4)
        yield Case(f"a mend of {many}", ["--limit", 65536, "--history"], rows, WORKERS)


def full_journals():
    """A journal that is full: behind a call, and in a mend by one worker."""
    rows = [Row(1, 1, "put", "a", "", b"ABC"), *calls("stat", "stat", "lose 0 0", "lose 0 1")]
    rows += [Row(2, 0, "mend"), Row(3, 1, "trim", "", "0"), *calls("stat", round=3)]
    for limit in (1, 2, 3, 4, 5, 6, 7):
        yield Case(f"a journal of at most {limit}", ["--limit", limit, "--history"], rows)


def workers():
    """So many rows of each worker in one round, each worker over a blob of its own."""
    turn = ["read 0 5", "lose 0 {}", "read 3 2", "repair 0 {}", "stat"]
    for many in WORKERS:
        for each in ROWS:
            rows = [Row(1, 1, "put", f"n{k}", "", b"%07x" % k) for k in range(1, many + 1)]
            for n in range(each):
                text = turn[n % 5].format(n // 5 % 12)
                for k in range(1, many + 1):
                    rows += calls(text, name=f"n{k}", round=2, worker=k)
            words = ["--limit", 65536, "--history"]
            yield Case(f"{each} rows of each worker", words, rows, [many])


TABLES = (shapes, trims, names, mends, full_journals, workers)


def cases():
    for table in TABLES:
        yield from table()


def in_order(entries, mends_in):
    """The entries, those of a round by worker, and those of a mend by what they repair."""

    def key(entry):
        if entry.round not in mends_in:
            return (0, entry.who)
        return (1, *[int(n) if n.isdigit() else n for n in entry.call.split()])

    ordered = []
    for round, group in groupby(entries, lambda entry: entry.round):
        is_mend = round in mends_in
        for entry in sorted(group, key=key):
            ordered.append((0 if is_mend else entry.who, entry.call, entry.note))
    return ordered


def printed_entries(lines, journal, trimmed):
    """The printed entries, each in the round of the computed one; None if one is bent."""
    found = []
    if len(lines) != len(journal):
        return None
    for number, (line, own) in enumerate(zip(lines, journal), trimmed + 1):
        parts = history.ENTRY.fullmatch(line)
        if not parts or int(parts.group(1)) != number:
            return None
        call = f"{parts.group(3)} {parts.group(4)}{parts.group(5)}"
        found.append(Entry(own.round, int(parts.group(2)), call, parts.group(6)))
    return found


class Expectation:
    """What a case's script must print."""

    def __init__(self, case):
        value = dict(zip(case.words, case.words[1:]))
        self.model = Model(int(value.get("--width", 1)), int(value.get("--limit", 4096)))
        self.replies = [f"{n} {self.model.reply(row)}" for n, row in enumerate(case.rows, 1)]
        self.mends_in = {row.round for row in case.rows if row.op == "mend"}
        self.journal = self.model.journal if "--history" in case.words else []
        calls = self.model.trimmed + len(self.model.journal)
        self.tail = [f"calls {calls}", "lawful yes", ""]

    def fault(self, printed):
        """What is wrong with a printed text, or None."""
        lines = printed.decode().split("\n")
        middle = lines[len(self.replies) : len(lines) - len(self.tail)]
        for line, reply in zip(lines, self.replies):
            if line != reply:
                return f"{line[:80]} for {reply[:80]}"
        if lines[len(lines) - len(self.tail) :] != self.tail:
            return f"it ends with {lines[-3:]}"
        entries = printed_entries(middle, self.journal, self.model.trimmed)
        if entries is None:
            return "the history's lines are bent"
        if in_order(entries, self.mends_in) != in_order(self.journal, self.mends_in):
            return "another history"
        return None


def faults(case):
    """What is wrong with each run of a case, or None."""
    expectation = Expectation(case)
    script = "".join(map(line_of, case.rows)).encode()
    for workers in case.workers:
        words = [PROGRAM, "/dev/stdin", "--workers", str(workers), *map(str, case.words)]
        ran = subprocess.run(words, input=script, env={}, timeout=60, capture_output=True)
        if ran.returncode or ran.stderr:
            yield f"status {ran.returncode}, {ran.stderr}"
        else:
            yield expectation.fault(ran.stdout)
