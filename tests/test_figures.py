"""Figures and tables of the documents, beside the code that they are of."""

import glob
import itertools
import os
import re
from pathlib import Path

import lrc
import pytest
from libraries import read as page
from sources import TOP, expect_none, read

# A line of docs/limits.md, and what the code has of it.
LIMITS = [
    (
        "| width: bytes of a fragment | 1 to 65,536 |",
        "crates/command_line/src/reading.rt",
        "MAX_WIDTH: u32 = 65_536",
    ),
    ("| stripes of a blob | 4,096 |", "crates/history/src/replay.rt", "len ≤ 4096"),
    ("1 to 1,048,576 |", "crates/history/src/limit.rt", "entries ≤ 1048576"),
    ("| passes (sessions in C) to a store | 64 |", "crates/shared/src/store.rt", "room = 64"),
    (
        "| shards of a sharded store | 1 to 64 |",
        "crates/sharded/src/store.rt",
        "(1 ≤ count) × (count ≤ 64)",
    ),
    ("| name | 1 to 32 bytes of", "crates/history/src/name.rt", "ArrayString<32>"),
    (
        "| rows of a script, workers of a script | 65,536 and 16 |",
        "crates/play/src/run.rt",
        "length rows.items ≤ 65536",
    ),
]


def says(name, *texts):
    """Fails if a page lacks one of the texts, which may go over the ends of its lines."""
    words = " ".join(page(name).split())
    expect_none(f"{name} does not say {it}" for it in texts if it not in words)


@pytest.mark.parametrize("line, path, code", LIMITS)
def test_limits(line, path, code):
    says("docs/limits.md", line)
    assert code in page(path)


def test_weights():
    """Each row of the table of weights in docs/review/definitions.md."""
    row = re.compile(
        r"(\d+)(?: \.\. (\d+))? \| ([0-9A-F ]+) \| ([0-9A-F ]+) \| ([0-9A-F ]+) \| ([0-9A-F ]+)"
    )
    count = 0
    for line in page("docs/review/definitions.md").splitlines():
        halves = line.strip("| ").split(" | | ")
        if len(halves) != 2 or not row.match(halves[0]):
            continue
        for code, half in zip(("Wide", "Small"), halves):
            first, last, *cells = row.match(half).groups()
            span = range(int(first), int(last or first) + 1)
            for weights, cell in zip(lrc.WEIGHTS[code], cells):
                said = [int(word, 16) for word in cell.split()]
                count += 1
                assert [weights[f] for f in span] in (said, said * len(span)), (code, half)
    assert count == 48


def test_parities():
    """The rows of weights in docs/fragments.md."""
    row = r"^\| (12|6) \| (\d+) \| ([0-9A-F ]+) \|$"
    rows = re.findall(row, page("docs/fragments.md"), re.M)
    assert len(rows) == 8
    for code, parity, cells in rows:
        count = int(code)
        weights = lrc.WEIGHTS["Wide" if count == 12 else "Small"][int(parity) - count]
        assert [int(word, 16) for word in cells.split()] == weights[:count], (code, parity)


def is_recoverable(lost):
    return not any(lrc.is_open("Wide", lost, f) for f in lost)


def test_folders():
    """How many of the folders in docs/files.md may be lost: all single ones, and how many pairs."""
    rows = re.findall(r"^\| (\d+) \| (\d+) \| (any .*) \|$", page("docs/files.md"), re.M)
    for folders, each, said in rows:
        count = int(folders)
        have = [frozenset(range(i, 16, count)) for i in range(count)]
        saved = [
            [is_recoverable(frozenset().union(*of)) for of in itertools.combinations(have, size)]
            for size in (1, 2, 3, 4)
        ]
        pairs = f"{sum(saved[1])} of {len(saved[1])}"
        words = {
            "any one": all(saved[0]) and not any(saved[1]),
            f"any one, and most pairs ({pairs})": all(saved[0]) and not all(saved[1]),
            "any three, and most sets of four": all(saved[2]) and not all(saved[3]),
        }
        assert 16 // count == int(each) and words.get(said), said


def test_machines():
    """The machines of docs/codes.md that have two fragments each: any two may be lost, no three."""
    row = r"^\| LRC\((12|6),2,2\) \| (\d) \| (\d+ and .*) \| any two \|$"
    rows = re.findall(row, page("docs/codes.md"), re.M)
    assert len(rows) == 2
    for data, count, cell in rows:
        code = "Wide" if data == "12" else "Small"
        have = [frozenset(map(int, it)) for it in re.findall(r"(\d+) and (\d+)", cell)]
        assert len(have) == int(count)
        assert sorted(itertools.chain(*have)) == list(range(int(data) + 4))
        for size in (2, 3):
            for of in itertools.combinations(have, size):
                lost = frozenset().union(*of)
                is_unrecoverable = any(lrc.is_open(code, lost, f) for f in lost)
                assert is_unrecoverable == (size == 3), (code, lost)


def test_counts():
    """How many lost sets are recoverable, and what a rebuild reads, computed anew."""
    sets = [frozenset(it) for size in range(5) for it in itertools.combinations(range(16), size)]
    whole = sum(map(is_recoverable, sets))
    reads = sum(len(lrc.rebuilt_from("Wide", frozenset([f]), f)) for f in range(16)) / 16
    fours = [is_recoverable(lost) for lost in sets if len(lost) == 4]
    said = f"in {sum(fours):,} of {len(fours):,} cases ({100 * sum(fours) / len(fours):.0f} %) |"
    says("README.md", said, f"on average | {reads:g} |")
    says("docs/codes.md", f"| {whole:,} | {whole:,} | {reads:g} |")


def row_of(text, title, name):
    """The figures of a row of a table of bench/results/coder.txt, by the bytes of a fragment."""
    table = text.split(f"| {title} |")[1].split("\n\n")[0].splitlines()
    (row,) = [line for line in table if line.startswith(f"| {name} |")]
    widths = [int(width) for width in table[0].strip("| ").split(" | ")]
    return dict(zip(widths, (float(cell.split()[0]) for cell in row.strip("| ").split(" | ")[1:])))


@pytest.mark.parametrize(
    "name, builds", [("README.md", ["v3"]), ("docs/performance.md", ["v3", "v4"])]
)
def test_gain(name, builds):
    """How many times as fast one is made from 6 as ISA-L makes one from 12."""
    text = page("bench/results/coder.txt")
    twelve = row_of(text, "twelve to one", "ISA-L")
    gains = [
        row_of(text, "six to one", f"{build} lrc_rebuild")[width] / twelve[width]
        for build in builds
        for width in (4096, 65536)
    ]
    says(name, f"{min(gains):.1f} to {max(gains):.1f} times as fast")


def test_quotes():
    """What README.md says by figures that stand in other pages."""
    ceph = page("integrations/ceph/README.md")
    reads = sorted(float(one) for one in re.findall(r"^\| the .* \| (0\.\d+) \|$", ceph, re.M))
    shards = re.search(
        r"^\| reads \| a name for each \| 4 \| ([\d.]+) \| [\d.]+ \| [\d.]+ \| ([\d.]+) \|",
        page("docs/performance.md"),
        re.M,
    )
    one, sixteen = map(float, shards.groups())
    least, most = 100 - 100 * reads[-1], 100 - 100 * reads[0]
    says(
        "README.md",
        f"recovery reads of a Ceph pool by {least:.0f} to {most:.0f} %",
        f"make {one:.1f} times the calls of one thread.",
        f"With 16 shards they make {sixteen:.1f} times.",
    )


def last_cell(text, name):
    """The first figure in the last cell of a row of a table."""
    (row,) = [line for line in text.splitlines() if line.startswith(f"| {name} |")]
    return row.strip("| ").split(" | ")[-1].split()[0]


def coder_conclusions(text):
    """What docs/performance.md concludes from its table of the coder."""
    encoded, six, twelve = (
        last_cell(text, f"{call}, AVX2")
        for call in ("encode", "rebuild one from 6", "rebuild one from 12")
    )
    yield f"encodes {encoded} GB of data a second, and makes {six} GB a second of lost"
    yield f"or {twelve} GB from twelve."


def store_conclusions(text):
    """What it concludes from its tables of the store, and from kept figures."""
    results = page("bench/results/store_c.txt")
    reads = float(re.search(r"^\| reads by 1 \| ([\d.]+) ", text, re.M).group(1))
    small, large = (last_cell(results, f"a read of {size} bytes") for size in ("64", "65,536"))
    shards = re.search(r"^\| reads \| a name for each \| 4 \| (.*) \|$", text, re.M).group(1)
    one, _, _, sixteen = map(float, shards.split(" | ")[:4])
    yield f"takes {1 / reads:.1f} microseconds in Rattle,"
    yield f"{small} times as long as in Rattle for 64 bytes and {large} times for 65,536."
    from_c = page("bench/results/shards.txt")
    for call, name in (("reads", "a read with a copy"), ("puts", "a put")):
        cells = re.findall(rf"^{call}, (\d+) ns", from_c, re.M)
        yield f"| {name} | {' | '.join(cells)} |"
    reads = from_c.split("\nreads,")[1].split("\nputs,")[0]
    plain, sessions = (
        re.search(rf"^{way} .* ([\d.]+)$", reads, re.M).group(1)
        for way in ("a plain store", "16 shards, sessions kept")
    )
    yield f"From C they make {plain} and {sessions} times."
    yield f"make {one:.1f} times the reads of one thread,"
    yield f"they make {sixteen:.1f} times."


def language_rows(language):
    """The rows of its table of the coder from a language, which are kept by the bytes of a
    fragment."""
    results = page(f"bench/results/{language}_coder.txt")
    for name, small in re.findall(r"^(.+) \| \d+ \| ([\d.]+)$", results.split("\n65536 ")[0], re.M):
        large = re.search(
            rf"^{re.escape(name)} \| \d+ \| ([\d.]+)$", results.split("\n65536 ")[1], re.M
        )
        yield f"| {name} | {small} | {large.group(1)} |"


def shard_conclusions():
    """What docs/threads.md concludes from the kept figures of shards from C."""
    results = page("bench/results/shards.txt")
    last = re.findall(r"^16 shards, sessions kept .* ([\d.]+)$", results, re.M)
    single, _, many, puts = map(float, last[:4])
    yield f"make {single:.1f} times the reads of one thread if each reads a single name."
    yield f"make {many:.2f} times the reads and {puts:.1f} times the puts of one ("


def test_conclusions():
    """What pages conclude from figures, in sentences of their own."""
    text = page("docs/performance.md")
    says("docs/performance.md", *coder_conclusions(text), *store_conclusions(text))
    says("docs/performance.md", *language_rows("python"), *language_rows("go"))
    says("docs/threads.md", *shard_conclusions())


def test_output():
    """The lines that README.md says a script prints."""
    paths = glob.glob(os.path.join(TOP, "scripts", "*.txt"))
    printed = {line for path in paths for line in read(path).splitlines()}
    said = r"^    (\d+ (?!bytes )[a-z].*|calls \d+|lawful \w+)$"
    assert set(re.findall(said, page("README.md"), re.M)) <= printed


def test_words():
    """The words with which a script is refused, and the replies of its rows."""
    text = page("docs/script.md")
    words = re.findall(r"Word::\w+ => \"(\w+)\"", page("crates/script/src/rows.rt"))
    tests = text[text.index("| Word | Test that failed |") : text.index("`scripts/refused/`")]
    assert [word for word in words if f"| `{word}` |" not in tests] == []
    shown = r"^  (\w+)(?:, (\w+))? "
    operations = re.findall(shown, page("crates/command_line/src/help.rt"), re.M)
    says("docs/script.md", *(f"`{one}`" for pair in operations for one in pair if one))


def refused_lines(name):
    """The lines of a script that is refused."""
    return Path(TOP, "scripts", "refused", name).read_text("utf-8", "replace").splitlines()


def test_refusals():
    """The refused rows and scripts of docs/script.md: test_examples runs them all, and its output
    has what they print."""
    text, printed = page("docs/script.md"), page("crates/test_examples/stdout")
    messages = dict(re.findall(r"^refused/(\S+): (row \d+: \w+)$", printed, re.M))
    examples = re.findall(r"\| `([^`|]*)`[^`|]* \| `(row (\d+): \w+)` \|$", text, re.M)
    for row, message, number in examples:
        files = [name for name, said in messages.items() if said == message]
        assert row in [refused_lines(name)[int(number) - 1] for name in files], message
    causes = re.findall(r"^\| `(row \d+: \w+)` \| .* \| `(\w+\.csv)` \|$", text, re.M)
    assert {name: message for message, name in causes} == messages
    assert len(examples) == 6 and len(causes) == len(messages)
