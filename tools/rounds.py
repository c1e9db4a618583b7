"""Tries the mutants of a crate in rounds: many edits at once, each in another function.

Of another function a proof sees the contract alone, so an edit inside one body changes no verdict
but that function's. The prover judges all functions in one run, and names each that it refuses.

A round only ever says "refused", and of an edit only if its own function has a line `not proved`,
the prover finds fault at a place of its own, and every item that no edit changes is proved or waits
for what is not. Every other edit rt tries alone: one that changes more than the inside of one body
or writes an item there, one whose function is `const`, in a cycle of calls or has a function
inside, and one of which no round says that it is refused. So a mutant that survives, and one that
does not compile, is judged alone, and once more from nothing.

An edit in a form that the prover does not cover reaches no contract. rt calls it refused; here it
is a bad edit.
"""

import os
import re
import shutil
import subprocess
import sys
import tempfile

TOP = os.path.dirname(os.path.dirname(os.path.abspath(__file__)))
sys.path.append(os.path.join(TOP, "tests"))

import sources  # noqa: E402

# Where `ci` leaves the checked modules of a static library, and the sizes of functions' states.
CHECKED, STATES = "out/checked", "out/states"
KEPT_NAMES: list = []
# What another function can see, even inside a body.
ITEM = re.compile(r"\b(const|enum|fn|ghost|impl|macro_rules|mod|static|struct|trait|type|use)\b|#")
# What a report says of an item.
SAID = re.compile(r"^(?:const|enum|fn|impl|static|struct|trait|type|union) (\S+): (.*)$", re.M)
PLACE = re.compile(r"(note: )?(?:\./)?([^\s:]+):(\d+):\d+: (error: )?")
# What stands before the body of an `impl` or a `trait`.
HEAD = re.compile(r"^(?:impl(?P<impl>[^{]*)|(?:pub(?:\(\w+\))? )?(?P<trait>trait\b)[^{]*)\{", re.M)
# The lines of comments and attributes above a function.
ATTRIBUTES = r"(?m)(^[ \t]*(#\[|///).*\n)*[ \t]*\Z"
# What the prover says of a function that it refuses, also where that one calls another that is not
# proved; and of an item that waits for another: of one that calls it or an `impl` with it, and of
# one that calls a function whose form is not covered.
REFUSED = re.compile(r"not proved($|; it calls `)|no proof: expected ")
WAITS = (
    "no proof: it calls `",
    "not proved; it waits for the proof of `",
    "no proof: the borrow checker's part in its proof is not made ",
)
UNCOVERED = "the borrow checker does not cover"
# A proof that names what is not there: what the edit of its function took away, if that is of a
# module that the prover makes of the function, or else the doing of another edit.
MISSING = re.compile(r"has no field|is not in scope|has no `|was not admitted")


class Edit:
    """An edit: the file that it changes, that file with it, and the function whose body alone it
    changes, if there is one."""

    def __init__(self, rt, crate, edit):
        self.crate, self.edit, self.function = crate, edit, None
        self.name = os.path.basename(edit)
        texts, _ = rt.read_edit(edit, crate.folder)
        changes = "\n".join(re.findall(r"^(?:old|new):(.*)$", sources.read(edit), re.M))
        if texts and len(texts) == 1 and not ITEM.search(changes):
            self.path, self.text = texts.popitem()
            self.whole = sources.read(f"{crate.folder}/{self.path}")
            self.function = self.changed_function() if self.path.startswith("src/") else None

    def changed_function(self):
        """The function inside whose body all changes are, or None."""
        start = len(os.path.commonprefix([self.whole, self.text]))
        behind = os.path.commonprefix([self.whole[: start - 1 : -1], self.text[: start - 1 : -1]])
        end, code = len(self.whole) - len(behind), sources.blanked(self.whole)
        around = [it for it in sources.functions_of(self.whole) if it.body < start and end < it.end]
        if len(around) != 1 or re.search(r"\bfn\b", code[around[0].body : around[0].end]):
            return None
        one = around[0]
        head = self.whole[: one.start].rpartition("\n\n")[2] + code[one.start : one.body]
        return None if re.search(r"\bconst\b[^{]*\bfn\b|\bcycle\(", head) else one

    def body(self):
        """The function's body with the edit."""
        return self.text[self.function.body : self.function.end + len(self.text) - len(self.whole)]

    def key(self):
        return self.path, self.function.start

    def reported_name(self):
        """What a report calls the function, as a pattern: a method by the module of its type, and
        by the type's name with the trait's behind it."""
        it = self.function
        if it.owner:
            *_, around = HEAD.finditer(sources.blanked(self.whole)[: it.start])
            head = "" if around["trait"] else around["impl"]
            behind = sources.matching_angle(head, 0) if head.startswith("<") else 0
            own = set(re.findall(r"\w+", head[:behind]))
            trait, is_of_trait, _ = re.sub(r"\w+::|'\w+", "", head[behind:]).partition(" for ")
            words = "".join(word for word in re.findall(r"\w+", trait) if word not in own)
            words = r"\w*" + words if is_of_trait else ""
            return rf"{self.crate.name}::(\w+::)*{it.owner}{words}::{it.name}"
        below = self.path[len("src/") : -len(".rt")].split("/")
        below = [part for part in below if part not in ("lib", "main", "mod")]
        return "::".join([self.crate.name, *below, it.name])

    def is_named(self, name):
        """Whether a report names the function so, or a closure in it."""
        return re.fullmatch(self.reported_name() + "(::.*)?", name.replace("::fn::", "::"))

    def has_line(self, path, line):
        """Whether a line of a file is of the function, from its attributes to its body's end."""
        head = re.search(ATTRIBUTES, self.whole[: self.function.start]).start()
        first, last = (self.whole.count("\n", 0, at) + 1 for at in (head, self.function.end))
        return path == self.path and first <= int(line) <= last


class Report:
    """What one run over some edits says: its lines; and what it says of each item, or None if it
    judges nothing."""

    def __init__(self, rt, crate, ran, texts):
        self.crate = crate.name
        self.lines = ran.stdout.rstrip("\n").split("\n")
        self.items = dict(SAID.findall(ran.stdout))
        is_judged = ran.returncode == 1 and self.lines[-1].startswith("logic=not-proved")
        is_stale = rt.rtlib.STALE.search(ran.stdout)
        if not is_judged or is_stale or any(rt.unread(it, texts) for it in self.lines):
            self.items = None

    def drop_unless_of(self, edits):
        """Judges nothing if an item that no edit changes is refused for itself, or a lemma is."""
        places = filter(None, map(PLACE.match, self.lines))
        lemmas = [at for at in places if at[4] and re.fullmatch(r"proofs/\w+\.antt", at[2])]
        refused = [
            name
            for name, said in (self.items or {}).items()
            if not said.startswith(("proved", *WAITS))
        ]
        others = [name for name in refused if not any(it.is_named(name) for it in edits)]
        if lemmas or others:
            self.items = None

    def of(self, edit):
        """What it says of an edit's function, and of closures in it."""
        return [said for name, said in (self.items or {}).items() if edit.is_named(name)]

    def is_covered(self, edit):
        return not any(UNCOVERED in it for it in self.of(edit))

    def cannot_compile(self, edit):
        found = (re.match(r"([^\s:]+):(\d+):\d+: error\[", it) for it in self.lines)
        return any(edit.has_line(at[1], at[2]) for at in found if at)

    def places(self, edit, name):
        """The lines that find fault with an edit's function: in itself, or in its proof's files."""
        proof = "proofs/" + "/".join(name.split("::")[1:]) + "/"
        for line in self.lines:
            at = PLACE.match(line)
            if at and (at[1] or at[4]):
                if edit.has_line(at[2], at[3]) or at[2].replace("/fn/", "/").startswith(proof):
                    yield line

    def refusal(self, edit):
        """The line that refuses an edit for what its own function does, or ""."""
        names = [it for it in self.items or () if re.fullmatch(edit.reported_name(), it)]
        is_refused = any(map(REFUSED.match, self.of(edit)))
        if not is_refused or len(names) != 1 or not self.is_covered(edit):
            return ""
        found = list(self.places(edit, names[0]))
        own = f"Rattle.{self.crate}.proofs." + ".".join(names[0].split("::")[1:]) + "."
        if any(MISSING.search(it) and own not in it for it in found):
            return ""
        return next((it for it in found if not MISSING.search(it)), "")


def rounds_of(edits):
    """Parts edits into rounds, in none of which two change one function."""
    rounds = []
    for edit in edits:
        free = next((it for it in rounds if edit.key() not in it), None)
        if free is None:
            rounds.append(free := {})
        free[edit.key()] = edit
    return [list(it.values()) for it in rounds]


def texts_of(edits):
    """The files with all these edits, each put in by its place."""
    texts = {it.path: it.whole for it in edits}
    for it in sorted(edits, key=Edit.key, reverse=True):
        text = texts[it.path]
        texts[it.path] = text[: it.function.body] + it.body() + text[it.function.end :]
    return texts


class Trial:
    """The trial of a crate's edits over one proof of the crate, which no run changes."""

    def __init__(self, rt, crate, flags, proof):
        self.rt, self.crate, self.flags, self.proof = rt, crate, flags, proof
        self.refused = {}

    def over_copy(self, call):
        with tempfile.TemporaryDirectory(prefix="rt-round-") as room:
            shutil.copytree(self.proof, f"{room}/kept", copy_function=link_modules)
            return call(f"{room}/kept")

    def try_together(self, edits):
        """Notes the edits that one run, and those that follow it, show to be refused."""
        if len(edits) < 2:
            return  # alone it costs the same
        texts = texts_of(edits)
        ran = self.over_copy(lambda proof: self.rt.checked(self.crate, texts, self.flags, proof))
        report = Report(self.rt, self.crate, ran, texts)
        report.drop_unless_of(edits)
        for it in edits:
            line = report.refusal(it)
            if line:
                self.note(it, f"refused, in a round of {len(edits)}: {line[:140]}")
        for rest in self.rests(edits, report):
            self.try_together(rest)

    def note(self, edit, text):
        self.refused[edit.edit] = f"must-fail {self.crate.name}/{edit.name}: {text}"

    def rests(self, edits, report):
        """The rounds that are to follow one: of the edits that it leaves open, but without those
        that do not compile or that hide others by a form that is not covered; or its halves, if it
        judges nothing. None follows if it shows nothing new."""
        is_judged = report.items is not None
        is_bad = (lambda it: not report.is_covered(it)) if is_judged else report.cannot_compile
        rest = [it for it in edits if it.edit not in self.refused and not is_bad(it)]
        if len(rest) < len(edits):
            return [rest]
        half = 0 if is_judged else len(edits) // 2
        return [edits[:half], edits[half:]] if half else []

    def try_alone(self, edit):
        """Tries an edit as rt does, and again from nothing if it is not refused so."""
        whole, runs = self.rt.checked, []

        def checked(*given):
            runs.append(whole(*given))
            return runs[-1]

        self.rt.checked = checked
        try:
            verdict = self.over_copy(
                lambda proof: self.rt.must_fail(self.crate, edit.edit, self.flags, proof)
            )
        finally:
            self.rt.checked = whole
        if not verdict[0]:
            return self.rt.must_fail(self.crate, edit.edit, self.flags)
        if not is_covered(self.rt, self.crate, edit.edit, runs[0]):
            return False, uncovered(self.crate, edit.edit)
        return verdict


def kept_name(rt, crate):
    """The name of the folder in which the prover keeps modules, the same for all crates."""
    if not KEPT_NAMES:
        with tempfile.TemporaryDirectory(prefix="rt-name-") as room:
            rt.checked(crate, {}, ["--jobs", "1", "--only", ""], room)
            KEPT_NAMES.extend(os.listdir(room))
    return KEPT_NAMES[0]


def unpack(archive, folder):
    """Unpacks the checked modules of a crate."""
    listed = subprocess.run(["ar", "t", archive], stdout=subprocess.PIPE, text=True, check=True)
    for name in {os.path.dirname(it) for it in listed.stdout.splitlines()}:
        os.makedirs(os.path.join(folder, name), exist_ok=True)
    subprocess.run(["ar", "x", archive], cwd=folder, check=True)


def link_modules(one, other):
    """Copies a file of a proof: a checked module by a link, since no run changes one in place."""
    return (os.link if one.endswith(".oantt") else shutil.copy2)(one, other)


def unpack_checked(rt, crate, proof):
    """Fills a folder with what the proof of the crate in `ci` has checked, or with nothing."""
    made = f"{crate.folder}/{CHECKED}" if crate.is_static else crate.rlib
    archive = os.path.abspath(f"{made}/toolchain/checked.a")
    os.makedirs(proof, exist_ok=True)
    if os.path.isfile(archive):
        unpack(archive, os.path.join(proof, kept_name(rt, crate)))


def start(rt, crate, proof, is_alone):
    """Fills a folder with what a proof of the crate has left, or with nothing."""
    own = f"{crate.folder}/out/incremental"
    if is_alone and os.path.isdir(own):
        shutil.copytree(own, proof, copy_function=link_modules)
    else:
        unpack_checked(rt, crate, proof)


def note_states(crate, proof):
    """Leaves how many bytes the states of each function have in the prover, largest first."""
    head, end = f"Rattle-{crate.name}-proofs.", ".Lts.oantt"
    rows = [
        (os.path.getsize(os.path.join(folder, file)), file[len(head) : -len(end)])
        for folder, _, files in os.walk(proof)
        for file in files
        if file.startswith(head) and file.endswith(end)
    ]
    os.makedirs(f"{crate.folder}/out", exist_ok=True)
    with open(f"{crate.folder}/{STATES}", "w", encoding="utf-8") as file:
        file.writelines(f"{size} {name}\n" for size, name in sorted(rows, reverse=True))


def trial_of(rt, crate, edits, flags, proof):
    """The trial of a crate's edits, once all rounds are tried over a proof of the crate."""
    note_states(crate, proof)
    trial = Trial(rt, crate, flags, proof)
    for each in rounds_of([it for it in edits if it.function]):
        trial.try_together(each)
    return trial


def refused(rt, crate, edits, flags, proof):
    """The edits that rounds show to be refused, each with what to say."""
    return trial_of(rt, crate, [Edit(rt, crate, it) for it in edits], flags, proof).refused


def try_edits(rt, crate, edits, flags, proof):
    """Tries a crate's edits over a proof of it: for each whether it is refused, and what to say."""
    read = [Edit(rt, crate, it) for it in edits]
    trial = trial_of(rt, crate, read, flags, proof)
    shown = {edit: (True, text) for edit, text in trial.refused.items()}
    return [shown.get(it.edit) or trial.try_alone(it) for it in read]


def is_covered(rt, crate, edit, ran):
    """Whether the prover covers the form of an edit, by its run over the edit alone."""
    read = Edit(rt, crate, edit)
    return not read.function or Report(rt, crate, ran, {}).is_covered(read)


def uncovered(crate, edit):
    """What to say of an edit in a form that the prover does not cover."""
    why = "BAD EDIT: the prover does not cover this form, so no contract was tried"
    return f"must-fail {crate.name}/{os.path.basename(edit)}: {why}"
