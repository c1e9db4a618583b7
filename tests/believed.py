#!/usr/bin/env python3
"""Which definitions a reader has to believe: tests/believed.py [--list]

For each part of the product they are those that the clauses of its public functions cite, with what
these stand on, all the way down to the kit's words. It prints the table of
docs/review/definitions.md: how many definitions and lines, without comments, a user of a part has
to read. With --list it prints their names, by file. It fails if the page has another row.
"""

import os
import re
import sys
from collections import defaultdict

from sources import CRATES, blanked, closing, files_of, functions_of, read

# What a user calls, and the crates and types that have these functions.
PARTS = {
    "the program": [("program", "")],
    "the store, passes and grants": [
        ("shared", "Store"),
        ("shared", "Pass"),
        ("shared", "Receipt"),
        ("lent", "Grant"),
        *(("named_calls", name) for name in ("Makes", "Waits", "WaitingCalls", "TryCalls")),
        *(("named_calls", name) for name in ("WaitingSnapshots", "TrySnapshots", "Store")),
    ],
    "the mender": [("mender", "")],
    "a store in shards": [("sharded", "ShardedStore"), ("sharded", "ShardedPass"), ("sharded", "")],
    "the store for C": [("store_c", "")],
    "the coder for C": [("coder_c", "")],
}
HEAD = re.compile(r"^ *(?:(?:abbrev|unfoldable) pub |pub (?:record|data) )(\S+)", re.M)
IMPORT = re.compile(
    r"use Rattle\.(\w+)\.specs\.([\w.]+?)(?:\.\{([^}]*)\}|\.TheVariants as (\w+)| as (\w+))"
)
WORD = re.compile(r"[A-Za-z_][\w-]*(?:\.[A-Za-z_][\w-]*)*")


def definitions_of(text):
    """Each definition of a file: the names that it gives, of a `data` those of its cases too, and
    its lines."""
    heads = list(HEAD.finditer(text))
    for head, end in zip(heads, [head.start() for head in heads[1:]] + [len(text)]):
        lines = [
            line
            for line in text[head.start() : end].split("\n")
            if line.strip() and not line.lstrip().startswith(("--", "module "))
        ]
        cases = (
            re.findall(r"^\s+([A-Za-z_]\w*) :", "\n".join(lines[1:]), re.M)
            if "pub data" in head.group()
            else []
        )
        yield [head.group(1), *cases], lines


def imports_of(text):
    """What the names of a file stand for: (crate, module, name), the name "" for all of a
    module."""
    names = {}
    for crate, module, listed, variants, alias in IMPORT.findall(text):
        for one in filter(None, (word.strip() for word in listed.split(","))):
            name, _, own = one.partition(" as ")
            names[own or name] = (crate, module, name)
        if variants or alias:
            names[variants or alias] = (crate, module, "")
    return names


class Definitions:
    """The definitions of all crates, and the clauses that stand on Rust's types."""

    def __init__(self):
        self.bodies, self.lines, self.imports, self.first = {}, {}, {}, {}
        self.types = defaultdict(list)
        for crate in sorted(os.listdir(CRATES)):
            self.read_specs(crate)
            self.read_types(crate)

    def read_specs(self, crate):
        folder = os.path.join(CRATES, crate, "specs")
        for name in sorted(os.listdir(folder)) if os.path.isdir(folder) else []:
            text, module = read(os.path.join(folder, name)), name[: -len(".antt")]
            self.imports[crate, module] = imports_of(text)
            for names, lines in definitions_of(text):
                key = (crate, module, names[0])
                self.bodies[key], self.lines[key] = "\n".join(lines), len(lines)
                for one in names:
                    self.first[crate, module, one] = key

    def read_types(self, crate):
        """The invariants of a type and its view: its `ghost` clauses."""
        for path in files_of(os.path.join(CRATES, crate, "src")):
            text = read(path)
            code, names = blanked(text), imports_of(text)
            for found in re.finditer(
                r"(?:struct|enum) (\w+)[^;{]*\{|impl[^;{]* for (\w+)[^;{]*\{", code
            ):
                whole = text[found.start() : closing(code, found.end() - 1)]
                ghosts = re.findall(r"ghost (?!use)[^{}]*\{[^}]*\}", whole)
                if ghosts and ("impl" not in found.group() or "Model" in found.group()):
                    self.types[crate, found.group(1) or found.group(2)].append(
                        ("\n".join(ghosts), names)
                    )

    def cited(self, text, crate, module, names):
        """The definitions and types that a text cites."""
        for word in set(WORD.findall(re.sub(r"--[^\n]*", "", text))):
            first, _, rest = word.partition(".")
            if (crate, module, first) in self.first:
                yield self.first[crate, module, first]
            elif first in names:
                yield from self.named(*names[first], rest)

    def named(self, crate, module, name, rest):
        name = name or rest.split(".")[0]
        if module.startswith("declared"):
            yield crate, "declared", module.split(".")[-1]
        elif (crate, module, name) in self.first:
            yield self.first[crate, module, name]
        elif name in self.imports.get((crate, module), {}):
            yield from self.named(*self.imports[crate, module][name], rest)

    def below(self, ahead):
        """All that these stand on, and they themselves."""
        seen, ahead = set(), list(ahead)
        while ahead:
            key = ahead.pop()
            if key in seen:
                continue
            seen.add(key)
            crate, module, name = key
            if module == "declared":
                for text, names in self.types[crate, name]:
                    ahead += self.cited(text, crate, None, names)
            elif key in self.bodies:
                ahead += self.cited(self.bodies[key], crate, module, self.imports[crate, module])
        return {key for key in seen if key in self.bodies}


def given(text, owner):
    """The relations that a type gives to the traits of its calls."""
    for found in re.finditer(rf"^impl \w+ for {owner} \{{\n(.*?)^\}}", text, re.M | re.S):
        yield from re.findall(r"^    ghost \w+ = \{(.*?)\};", found.group(1), re.M | re.S)


def roots(definitions, part):
    """What the clauses of the public functions of a part cite, and what its types give to traits of
    calls."""
    for crate, owner in PARTS[part]:
        for path in files_of(os.path.join(CRATES, crate, "src")):
            text = read(path)
            for relation in given(text, owner) if owner else ():
                yield from definitions.cited(relation, crate, None, imports_of(text))
            for function in functions_of(text):
                if function.is_public and function.owner == owner:
                    clauses = text[function.start : function.body]
                    yield from definitions.cited(clauses, crate, None, imports_of(text))


def row(what, believed, definitions):
    """A row of the table of docs/review/definitions.md."""
    lines = sum(definitions.lines[key] for key in believed)
    return f"| {what} | {len(believed):,} | {lines:,} |"


def listed(believed):
    """The names of definitions, by file."""
    by_file = defaultdict(list)
    for crate, module, name in sorted(believed):
        by_file[crate, module].append(name)
    for (crate, module), names in by_file.items():
        yield f"crates/{crate}/specs/{module}.antt: {', '.join(names)}"


def main(arguments):
    definitions = Definitions()
    believed = {part: definitions.below(roots(definitions, part)) for part in PARTS}
    if "--list" in arguments:
        for part in PARTS:
            print(f"{part}:", *listed(believed[part]), "", sep="\n")
    rows = [row(part, believed[part], definitions) for part in PARTS]
    rows.append(row("all parts together", set().union(*believed.values()), definitions))
    rows.append(row("all definitions of the repository", definitions.lines, definitions))
    page = read(os.path.join(os.path.dirname(CRATES), "docs", "review", "definitions.md"))
    print(*rows, sep="\n")
    if not all(one in page.split("\n") for one in rows):
        sys.exit("docs/review/definitions.md has another row: copy those above into its table")


if __name__ == "__main__":
    main(sys.argv[1:])
