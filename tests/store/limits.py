#!/usr/bin/env python3
"""Makes the calls of tests/limits.py at their limits with ample memory, through the library of the
store in the folder that LRC_LIBRARIES names.

Each worker's calls are made by a session of its own, in the order of the script. Each answer, each
byte of a read and each entry of the journal is compared with those of the model in tests/limits.py.
"""

import ctypes
import os
import sys

sys.path.insert(0, os.path.join(os.path.dirname(os.path.abspath(__file__)), ".."))
import limits  # noqa: E402

WORDS = {
    2: "no-name",
    3: "out-of-range",
    4: "unrecoverable",
    5: "no-fragment",
    6: "already-lost",
    7: "not-lost",
    9: "full",
    10: "too-long",
}
DONE = {
    "put": "stored",
    "read": "granted",
    "lose": "lost",
    "repair": "repaired",
    "delete": "deleted",
    "stat": "shape",
}
CALLS = [*DONE]  # as the header numbers them
DATA_FRAGMENTS = {"put": 12, "put6": 6}
RUNS_AT_ONCE = 64
U32, U64, FOREVER = ctypes.c_uint32, ctypes.c_uint64, ctypes.c_int64(-1)
LIBRARY = ctypes.CDLL(os.path.join(os.environ["LRC_LIBRARIES"], "liblrc_store.so"))
NOTHING = ctypes.create_string_buffer(1)


class Slice(ctypes.Structure):
    _fields_ = [("at", ctypes.c_void_p), ("len", ctypes.c_size_t)]


class Entry(ctypes.Structure):
    _fields_ = [
        ("name", Slice),
        *((it, U64) for it in ("first", "second", "third", "version", "len", "stripes", "lost")),
        *((it, U32) for it in ("who", "call", "status")),
    ]


class Refused(Exception):
    """A call has returned this status."""

    def __init__(self, status):
        super().__init__(status)
        self.status = status


class Slot:
    """A slot, which is released when it goes."""

    def __init__(self):
        self._as_parameter_ = ctypes.byref(ctypes.c_void_p())

    def __del__(self):
        LIBRARY.lrc_slot_release(self)


def ask(function, *words):
    """The outputs of a function of include/lrc_store.h. A word that is a type stands for one."""
    outputs = [word() for word in words if isinstance(word, type)]
    places = map(ctypes.byref, outputs)
    given = [next(places) if isinstance(word, type) else word for word in words]
    status = getattr(LIBRARY, f"lrc_{function}")(*given)
    if status:
        raise Refused(status)
    return [output.value for output in outputs]


def ask_of(session, call, name, *words):
    """The outputs of a call of a name."""
    text = name.encode()
    return ask(f"store_{call}_wait", session, text, U64(len(text)), *words, FOREVER)


def bytes_of(lent):
    """The bytes of a lent range, by its runs."""
    whole, count = bytearray(), RUNS_AT_ONCE
    while count == RUNS_AT_ONCE:
        runs = (Slice * RUNS_AT_ONCE)(*[(ctypes.addressof(NOTHING), 0)] * RUNS_AT_ONCE)
        words = U64(len(whole)), runs, U64(RUNS_AT_ONCE), U64
        (count,) = ask("slot_runs", lent, *words)
        for run in runs[:count]:
            whole += ctypes.string_at(run.at, run.len)
    return bytes(whole)


def answer(session, row):
    """What a call answers, as the words that the program prints behind the row's number."""
    if row.op in DATA_FRAGMENTS:
        words = row.b, U64(len(row.b)), U32(DATA_FRAGMENTS[row.op])
        return "stored {}".format(*ask_of(session, "put", row.name, *words, U64))
    if row.op == "trim":
        return "trimmed {}".format(*ask("store_trim_wait", session, U64(int(row.a)), U64, FOREVER))
    if row.op == "mend":
        return "mended {}".format(*ask("store_mend_wait", session, U64, FOREVER))
    if row.op == "delete":
        return "deleted {}".format(*ask_of(session, "delete", row.name, U64))
    if row.op == "stat":
        return "shape {} {} {} {}".format(*ask_of(session, "stat", row.name, *[U64] * 4))
    place = U64(int(row.a)), U64(int(row.b))
    if row.op == "read":
        lent = Slot()
        version, pieces = ask_of(session, "lend", row.name, *place, lent, U64, U64)
        return f"granted {version} {pieces} {bytes_of(lent).hex() or '-'}"
    return "{} {}".format(DONE[row.op], *ask_of(session, row.op, row.name, *place, U64))


def reply(session, row):
    """The answer, or the word for a status."""
    try:
        return answer(session, row)
    except Refused as refused:
        return WORDS[refused.status]


def expected(row, printed):
    """The reply that the model gives, in the words that a session can know."""
    words = printed.split()
    if words[0] == "granted":
        return f"granted {words[1]} {int(words[2]) + int(words[3])} {words[4]}"
    if words[0] == "mended":
        return " ".join(words[:2])
    if words[0] in WORDS.values():
        return words[0]
    return printed


def entry_of(journal, index):
    """An entry of the journal as the model has it: the caller, the call and the note."""
    entry = Entry(name=(ctypes.addressof(NOTHING), 0))
    ask("slot_entry", journal, U64(index), ctypes.byref(entry))
    name, op = ctypes.string_at(entry.name.at, entry.name.len).decode(), CALLS[entry.call]
    if op == "put":
        call = f"{'put' if entry.first == 12 else 'put6'} {name} {entry.second}"
    elif op in ("delete", "stat"):
        call = f"{op} {name}"
    else:
        call = f"{op} {name} {entry.first} {entry.second}"
    if entry.status:
        note = WORDS[entry.status] + (f" {entry.version}" if entry.status == 4 else "")
    elif op == "stat":
        note = f"shape {entry.version} {entry.len} {entry.stripes} {entry.lost}"
    else:
        note = f"{DONE[op]} {entry.version}"
    return entry.who, call, note


def complaint(case):
    """The first answer or entry of a case that is another one than the model's, or None."""
    value = dict(zip(case.words, case.words[1:]))
    width, limit = value.get("--width", 1), value.get("--limit", 4096)
    model = limits.Model(width, limit)
    workers = {row.worker for row in case.rows if row.op not in ("mend", "trim")} - {0}
    sessions = {worker: Slot() for worker in sorted(workers)}
    first, journal = Slot(), Slot()
    ask("store_open", U32(width), U32(limit), first)
    for worker, session in sessions.items():
        ask("store_split", first, U32(worker), session)
    for number, row in enumerate(case.rows, 1):
        wanted, found = expected(row, model.reply(row)), reply(sessions.get(row.worker, first), row)
        if found != wanted:
            return f"row {number}, {row.op}: {found[:80]} for {wanted[:80]}"
    for session in sessions.values():
        ask("store_join", first, session)
    discarded, count, lawful = ask("store_close_to", first, journal, U64, U64, U32)
    entries = [entry_of(journal, index) for index in range(count)]
    own = [(entry.who, entry.call, entry.note) for entry in model.journal]
    if (discarded, entries) != (model.trimmed, own):
        return "another journal"
    return None if lawful == 1 else "a journal that was not checked"


def main():
    made, wrong = 0, 0
    for case in limits.cases():
        made += 1
        text = complaint(case)
        if text:
            wrong += 1
            print(f"{case.what}: {text}")
    print(made, "cases at the limits,", wrong, "wrong")
    return 1 if wrong or not made else 0


if __name__ == "__main__":
    sys.exit(main())
