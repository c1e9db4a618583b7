#!/usr/bin/env python3
"""Holds tests/promises.md to the code: tests/promises.py [--write | --edits]

It fails if a clause of a public function, a mutant (a must-fail edit) or a test is not named there,
or if something is named that is not there. With --write it removes the names of mutants and tests
that are gone, names each missing mutant in the row of the function that it changes, and adds rows
for missing clauses and tests. What such a row says is filled in by hand: an empty cell fails too.
With --edits it prints each mutant with its change.
"""

import os
import re
import sys

import sources
from sources import RESULT, TOP

PROMISES = os.path.join(TOP, "tests", "promises.md")
HEAD = ["| Function, clauses | What it says | Mutants | Test |", "|---|---|---|---|"]
INDEX = "Mutants, and what rejects them"
OTHERS = "## The other crates"
WORDS = re.compile(r"`([^`]+)`")
# A test reaches a function through another one, or through another crate.
THROUGH = re.compile(r"by (?:the crate )?`([^`]+)`")


def words(cell):
    """What stands in backquotes, but for what stands in brackets beside it."""
    return WORDS.findall(re.sub(r"\([^()]*\)", "", cell))


class Row:
    """A row of a crate's table, by the number of its line."""

    def __init__(self, number, crate, line):
        self.number, self.crate = number, crate
        self.cells = [cell.strip() for cell in line.strip().strip("|").split(" | ")]
        named, _, said = self.cells[0].partition(": ")
        self.is_inner = named.startswith("inside")
        self.names, self.said = words(named), said
        self.clauses = words(said) + ([RESULT] if re.match(RESULT + r"\b", said) else [])

    def take_out(self, cell, name):
        """Takes a name that is gone out of a list of names."""
        others = [part for part in re.split(r"[,;] ", self.cells[cell]) if f"`{name}`" not in part]
        self.cells[cell] = ", ".join(others) or "none"

    def line(self):
        return "| " + " | ".join(self.cells) + " |"


def parse(lines, crates):
    """The rows of the crates' tables, and the lines of the index, each with its number from 0."""
    rows, index, section = [], [], ""
    for number, line in enumerate(lines):
        if line.startswith("## "):
            section = line[3:].strip()
        elif line.startswith("|") and not line.startswith("|---") and line != HEAD[0]:
            if section in crates:
                rows.append(Row(number, section, line))
            elif section == INDEX:
                index.append((number, line))
    return rows, index


def types_of(name):
    """The types of a crate that its callers can name."""
    return sources.exported(sources.read(os.path.join(sources.CRATES, name, "src", "lib.rt")))


class Check:
    """What is missing, and what is wrong, as (line number or None, words)."""

    def __init__(self, text):
        self.crates, self.lines = sources.crates(), text.splitlines()
        self.rows, self.index = parse(self.lines, self.crates)
        self.wrong, self.uncovered, self.unnamed_edits, self.unnamed_tests = [], [], [], []
        self.tests = {test for crate in self.crates.values() for test in crate.tests}
        self.check()

    def complain(self, number, complaint):
        self.wrong.append((number, f"tests/promises.md:{number + 1}: {complaint}"))

    def functions(self, row):
        """The functions that a row is about."""
        crate, found = self.crates[row.crate], []
        for name in row.names:
            named = crate.named(name)
            named = [f for f in named if f.is_public] if not row.is_inner else named
            if len(named) == 1 or row.is_inner:
                found += named
            elif named:
                paths = " or ".join(f"`{f.path()}`" for f in named)
                self.complain(row.number, f"`{name}` is {paths}")
            elif not crate.named(name) and name not in types_of(row.crate):
                self.complain(row.number, f"no public function of {row.crate} is `{name}`")
            if row.is_inner and not named and not name[0].isupper():
                self.complain(row.number, f"no function of {row.crate} is `{name}`")
        return found

    def is_test(self, row, word):
        """Whether a word names a test, of this crate or with its crate, a program, or a file."""
        crate, _, test = word.rpartition("::")
        own, program = self.crates.get(crate or row.crate), self.crates.get(word)
        is_named = own and test in own.tests or program and program.is_program
        return is_named or os.path.exists(os.path.join(TOP, word))

    def check_row(self, row):
        if len(row.cells) != 4 or not all(row.cells):
            return self.complain(row.number, "a cell is to be filled in, or there are not four")
        functions = self.functions(row)
        all_of = [clause for f in functions for clause in f.clauses]
        for function in functions[:1] if row.is_inner else functions:
            has = all_of if row.is_inner else function.clauses
            for clause in set(row.clauses) - set(has):
                lacks = f"`{function.path()}` has no clause {clause}: it has {', '.join(has)}"
                self.complain(row.number, lacks)
        for edit in words(row.cells[2]):
            if edit not in self.crates[row.crate].edits:
                self.complain(row.number, f"no edit of {row.crate} is `{edit}`")
                row.take_out(2, edit)
        for through in THROUGH.findall(row.cells[3]):
            is_function = any(crate.named(through) for crate in self.crates.values())
            if through not in self.crates and not is_function:
                self.complain(row.number, f"`{through}` is no function or crate")
        for test in words(THROUGH.sub("", row.cells[3])):
            if not self.is_test(row, test):
                self.complain(row.number, f"`{test}` is no test, program or file")
                row.take_out(3, test)

    def check_index(self):
        known = self.tests | set(self.crates)
        for crate in self.crates.values():
            known |= {*crate.edits, *(f.name for f in crate.functions)}
        for number, line in self.index:
            for word in words(line.split(" | ", 1)[-1]):
                if word not in known and not re.fullmatch(r"[A-Z]\w+|serial", word):
                    self.complain(number, f"`{word}` is no edit, test, function or crate")

    def check_contents(self):
        """Whether the line of crates at the top has a link to each crate's section."""
        head = "\n".join(self.lines).partition("\n## ")[0]
        for number, line in enumerate(self.lines):
            name = line[3:].strip() if line.startswith("## ") else ""
            if name in self.crates and f"](#{name})" not in head:
                self.complain(number, f"the top of the page has no link to {name}")

    def check_whole(self):
        """Whether all clauses, edits and tests are named."""
        named_tests = {
            word.rpartition("::")[2] for row in self.rows for word in words(row.cells[-1])
        }
        for name, crate in self.crates.items():
            mine = [row for row in self.rows if row.crate == name]
            covered = {
                (f.path(), clause)
                for row in mine
                if not row.is_inner
                for f in self.quiet_functions(row)
                for clause in row.clauses
            }
            for function in crate.public():
                path = function.path()
                lacking = [it for it in function.clauses if (path, it) not in covered]
                if lacking:
                    self.uncovered.append((name, function, lacking))
            named = {edit for row in mine for edit in words(row.cells[2])} if mine else set()
            self.unnamed_edits += [(name, edit) for edit in crate.edits if edit not in named]
            self.unnamed_tests += [(name, test) for test in crate.tests if test not in named_tests]

    def without_mutant(self):
        """The public functions with clauses of which no row names a mutant."""
        for name, crate in self.crates.items():
            named = set()
            for row in self.rows:
                if row.crate == name and words(row.cells[2]) and not row.is_inner:
                    is_own = not row.cells[2].startswith("none")
                    named |= {f.path() for f in self.quiet_functions(row) if is_own}
            yield from (f.path() for f in crate.public() if f.path() not in named)

    def quiet_functions(self, row):
        return [f for name in row.names for f in self.crates[row.crate].named(name) if f.is_public]

    def check(self):
        for row in self.rows:
            self.check_row(row)
        self.check_contents()
        self.check_index()
        self.check_whole()

    def complaints(self):
        """What is wrong, by the lines of the page, and then by crate."""
        yield from (complaint for _, complaint in sorted(self.wrong))
        for crate, function, lacking in self.uncovered:
            yield f"{crate}: no row has of `{function.path()}` the clauses {', '.join(lacking)}"
        yield from (f"{crate}: no row has the edit `{edit}`" for crate, edit in self.unnamed_edits)
        yield from (f"{crate}: no row has the test `{test}`" for crate, test in self.unnamed_tests)
        for name, crate in self.crates.items():
            for file, wanted in crate.misnamed:
                path = f"crates/{name}/must-fail/{file}"
                yield f"{path} is to be named {wanted}, by what it changes"


class Stubs:
    """Rows for what has none, by crate. What they say is left empty."""

    def __init__(self):
        self.rows = {}

    def add(self, crate, function, clauses, edits, tests):
        self.rows.setdefault(crate, []).append([function, clauses, edits, tests])

    def of(self, crate, function):
        """The row of a function, if there is one."""
        return next((row for row in self.rows.get(crate, []) if row[0] is function), None)

    def lines(self, crate):
        for function, clauses, edits, tests in self.rows[crate]:
            inside = "" if clauses else "inside, "
            first = f"{inside}`{function.path()}`" if function else "inside"
            said = ", ".join(it if it == RESULT else f"`{it}`" for it in clauses)
            first += f": {said}" if said else ""
            yield f"| {first} |  | {listed(edits)} | {listed(tests)} |"


def listed(names):
    return ", ".join(f"`{name}`" for name in names) or "none"


def stubs_of(check):
    """Rows for clauses, and for mutants and tests without one. A mutant goes to the first row of
    the function that it changes."""
    stubs = Stubs()
    for crate, function, lacking in check.uncovered:
        stubs.add(crate, function, lacking, [], [])
    for crate, edit in check.unnamed_edits:
        target = check.crates[crate].edits[edit][1]
        names = {target.name, target.path()} if target else set()
        of = (row for row in check.rows if row.crate == crate and names & set(row.names))
        row, stub = next(of, None), stubs.of(crate, target)
        if row:
            before = "" if row.cells[2].startswith("none") else f"{row.cells[2]}, "
            row.cells[2] = f"{before}`{edit}`"
        elif stub:
            stub[2].append(edit)
        else:
            stubs.add(crate, target, [], [edit], [])
    for crate, test in check.unnamed_tests:
        stubs.add(crate, None, [], [], [test])
    return stubs


def with_stubs(check):
    """The document with a place for what is missing."""
    stubs, lines, sections = stubs_of(check), list(check.lines), []
    for row in check.rows:
        if row.cells != Row(row.number, row.crate, lines[row.number]).cells:
            lines[row.number] = row.line()
    for crate in stubs.rows:
        last = max((row.number for row in check.rows if row.crate == crate), default=None)
        if last is None:
            sections += [f"## {crate}", "", *HEAD, *stubs.lines(crate), ""]
        else:
            lines[last] = "\n".join([lines[last], *stubs.lines(crate)])
    place = lines.index(OTHERS)
    return "\n".join(lines[:place] + sections + lines[place:]) + "\n"


def code(text):
    """Some code in a cell of a table."""
    text = text.strip().replace("|", "\\|")
    return f"`` {text} ``" if "`" in text else f"`{text}`" if text else "nothing"


def edits_text(crates):
    """Each mutant, the function that it changes first, and the change."""
    lines = []
    for name, crate in crates.items():
        if not crate.edits:
            continue
        lines += ["", f"## {name}", "", "| Mutant | Changes | From | To |", "|---|---|---|---|"]
        for edit, (path, target, pairs) in crate.edits.items():
            where = f"`{target.path()}`" if target else path
            more = f" and {len(pairs) - 1} more" if len(pairs) > 1 else ""
            old, new = map(code, pairs[0])
            lines.append(f"| `{edit}` | {where} | {old} | {new}{more} |")
    return "\n".join(lines[1:])


def write(path, text):
    with open(path, "w", encoding="utf-8") as out:
        out.write(text)


def main(arguments):
    check = Check(sources.read(PROMISES))
    if "--edits" in arguments:
        print(edits_text(check.crates))
        return 0
    if "--write" in arguments:
        write(PROMISES, with_stubs(check))
        check = Check(sources.read(PROMISES))
    complaints = list(check.complaints())
    crates = check.crates.values()
    clauses = sum(len(f.clauses) for c in crates for f in c.public())
    edits, tests = sum(len(c.edits) for c in crates), sum(len(c.tests) for c in crates)
    functions = sum(len(c.public()) for c in crates)
    print(*complaints, sep="\n", end="\n" if complaints else "")
    print(len(list(check.without_mutant())), "of", functions, "public functions have no mutant")
    count = len(complaints)
    print(clauses, "public clauses,", edits, "mutants and", tests, "tests,", count, "wrong")
    return 1 if complaints else 0


if __name__ == "__main__":
    sys.exit(main(sys.argv[1:]))
