"""The history of a run: read from what `lrcstore --history` prints, and replayed call by call over
which fragments are lost."""

import re
from dataclasses import dataclass, field

import lrc

ENTRY = re.compile(
    r"h (\d+) (\d+) (\S+) (\S+)((?: \d+)*) "
    r"(no-name|no-fragment|out-of-range|already-lost|not-lost|[a-z]+(?: \d+)+)"
)
CODES = {"put": "Wide", "put6": "Small"}


@dataclass
class Entry:
    """A line of the history: its number, its worker, the call's word, name and numbers, and the
    note."""

    number: int
    worker: int
    word: str
    name: str
    numbers: list
    note: str


def entries(printed):
    """The entries among the printed lines."""
    found = []
    for row in printed.splitlines():
        if row.startswith("h "):
            number, worker, word, name, numbers, note = ENTRY.fullmatch(row).groups()
            found.append(
                Entry(int(number), int(worker), word, name, [int(n) for n in numbers.split()], note)
            )
    return found


@dataclass
class Blob:
    """What is known of a blob without its bytes: version, length, code, width of a fragment, and
    the lost ones as (stripe, fragment)."""

    version: int
    length: int
    code: str
    width: int
    lost: set = field(default_factory=set)

    def stripes(self):
        return -(-self.length // (lrc.data_fragments(self.code) * self.width))

    def has(self, stripe, f):
        return stripe < self.stripes() and f < lrc.fragments(self.code)

    def lost_of(self, stripe):
        return frozenset(f for f in range(lrc.fragments(self.code)) if (stripe, f) in self.lost)

    def is_open(self, stripe, f):
        return lrc.is_open(self.code, self.lost_of(stripe), f)

    def covers(self, start, length):
        """The (stripe, fragment) in which the bytes of a range stand."""
        data = lrc.data_fragments(self.code)
        numbers = range(start // self.width, -(-(start + length) // self.width)) if length else ()
        return [divmod(number, data) for number in numbers]


class Replay:
    """The blobs by their names, and how many puts there were."""

    def __init__(self, width):
        self.width, self.puts, self.blobs = width, 0, {}

    def note(self, entry):
        """What an entry's note is by the rules, and the change that its call makes."""
        if entry.word in CODES:
            self.puts += 1
            self.blobs[entry.name] = Blob(
                self.puts, entry.numbers[0], CODES[entry.word], self.width
            )
            return f"stored {self.puts}"
        blob = self.blobs.get(entry.name)
        if blob is None:
            return "no-name"
        return getattr(self, "note_of_" + entry.word)(blob, entry)

    def note_of_read(self, blob, entry):
        start, length = entry.numbers
        if start + length > blob.length:
            return "out-of-range"
        is_open = blob.lost and any(blob.is_open(*at) for at in blob.covers(start, length))
        return f"unrecoverable {blob.version}" if is_open else f"granted {blob.version}"

    def note_of_lose(self, blob, entry):
        at = tuple(entry.numbers)
        if not blob.has(*at):
            return "no-fragment"
        if at in blob.lost:
            return "already-lost"
        blob.lost.add(at)
        return f"lost {blob.version}"

    def note_of_repair(self, blob, entry):
        at = tuple(entry.numbers)
        if not blob.has(*at):
            return "no-fragment"
        if at not in blob.lost:
            return "not-lost"
        if blob.is_open(*at):
            return f"unrecoverable {blob.version}"
        blob.lost.remove(at)
        return f"repaired {blob.version}"

    def note_of_delete(self, blob, entry):
        del self.blobs[entry.name]
        return f"deleted {blob.version}"

    def note_of_stat(self, blob, entry):
        return f"shape {blob.version} {blob.length} {blob.stripes()} {len(blob.lost)}"
