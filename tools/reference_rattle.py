"""The pages of the Rattle API: docs/api.md, and docs/api/NAME.md for each crate that users call.

A page has a heading for each public type and function, with its docstring and signature. Clauses
are folded, and followed by links to the definitions that they cite.
"""

import os
import re
import textwrap

import believed
import sources

TOP = sources.TOP
# The crates that users call, by what for, in the order of use.
GROUPS = [
    (
        "Put, read and repair",
        "`shared` and `named_calls` are enough for a program that puts, reads and repairs: "
        "`shared` re-exports what its calls name. The other crates have the types that calls take "
        "and return.",
        ["shared", "named_calls", "history", "book", "lent", "sealed"],
    ),
    (
        "Mend by workers",
        "`mender` repairs everything that is lost, by any number of threads.",
        ["mender"],
    ),
    (
        "Shards",
        "`sharded` has a store and the calls of `mender`, over a lock for each shard.",
        ["sharded", "one_map"],
    ),
    (
        "Lists of calls",
        "A service that gets calls as values hands them to `Store::run` or to `run_round`.",
        ["requests", "rounds"],
    ),
    (
        "The codes",
        "These two crates encode and decode fragments that a program keeps itself.",
        ["lrc_code", "decode"],
    ),
]
API = [name for _, _, crates in GROUPS for name in crates]
# The types and functions that a caller meets first, in the order of use. Others follow by name.
FIRST_TYPES = {
    "shared": ["Store", "Pass"],
    "named_calls": [
        *("WaitingCalls", "TryCalls", "WaitingSnapshots", "TrySnapshots"),
        *("Waits", "Makes"),
    ],
    "sharded": ["ShardedStore", "ShardedPass"],
    "mender": ["Drawer", "Tickets", "Done", "Report"],
    "history": ["Name", "Limit"],
    "book": ["Answer"],
    "lent": ["Grant", "Piece", "Walk", "PlannedWalk", "Snapshot", "Asked"],
    "sealed": ["Fault"],
    "lrc_code": ["Code", "LostSet"],
    "requests": ["Ask", "Job", "Pace", "Reply"],
    "rounds": ["Pool", "Errand", "Work"],
}
FIRST_CALLS = [
    *("put", "put_as", "put_copy", "read", "snapshot", "lose", "repair", "restore", "delete"),
    *("stat", "plan", "plan_part", "scrub", "work", "gather", "trim", "trim_part", "numbers"),
    *("split", "join", "receipt", "accept", "close"),
]
TYPE = re.compile(
    r"((?:^ *///.*\n)+)?(?:^ *#\[.*\n)*^pub (struct|enum|trait) (\w+)([^{;]*)([{;])", re.M
)
MEMBER = re.compile(
    r"((?:^    ///.*\n)*)(?:^    #\[.*\n)*^    (pub )?([A-Za-z_]\w*)([^\n]*?),?$", re.M
)
USE = re.compile(r"^pub use (\w+)::(?:\{([^}]*)\}|(\w+));", re.M)
LEGEND = [
    ("`requires`, `ensures name`", "what a caller has to ensure; what then holds at the return"),
    ("`result`, `result.0`", "what the function returns; the first part of a tuple"),
    ("`x.now`", "what a reference points to that the call leaves unchanged"),
    ("`x.old`, `x.new`", "what a `&mut` points to at the call, and at the return"),
    ("`f x y`, `λ x. t`", "the function `f` of `x` and `y`; the function from `x` to `t`"),
    ("`a ≡ b`, `a ≢ b`", "equal; not equal"),
    ("`P × Q`, `P ⊎ Q`, `P ↔ Q`", "and; or; if and only if"),
    ("`P → Q`, `P → ⊥`", "if `P`, then `Q`; not `P`"),
    ("`(x : A) → P`, `(x : A) × P`", "`P` for each `x` of `A`; for some `x` of `A`"),
    ("`IfOk r P`, `IfErr r P`", "`P` of the value, if there is one; of the error, if there is one"),
    ("`OnOk r P`, `OnErr r P`", "`P`, if `r` is a value; if it is an error"),
    ("`IfSome o P`, `IfNone o P`", "`P` of the value, if there is one; `P`, if there is none"),
    ("`MatchOption o P Q`", "`P`, if there is no value; else `Q` of it"),
    ("`record x { f = a; }`", "`x` with `a` as its field `f`"),
    ("`[]`, `x ∷ xs`, `xs ++ ys`", "no items; `x` and then `xs`; `xs` and then `ys`"),
]


def filled(text, lead="", later=""):
    """Some words on lines of at most 100 characters."""
    return textwrap.wrap(
        " ".join(text.split()),
        100,
        initial_indent=lead,
        subsequent_indent=later,
        break_long_words=False,
        break_on_hyphens=False,
    )


def purpose(name):
    """The first paragraph of a crate's README.md."""
    text = sources.read(os.path.join(sources.CRATES, name, "README.md"))
    return text.split("\n\n")[1].strip()


def anchor(heading):
    """The anchor of a heading, as web hosts make it."""
    return re.sub(r"[^\w\- ]", "", heading.lower()).replace(" ", "-")


def docs_before(text, place):
    """The paragraphs of the docstring that ends right before a place."""
    lines = []
    for line in reversed(text[:place].rstrip(" ").split("\n")[:-1]):
        if line.strip().startswith("///"):
            lines.insert(0, line.strip()[3:].strip())
        elif not line.strip().startswith("#["):
            break
    return [paragraph for paragraph in "\n".join(lines).split("\n\n") if paragraph.strip()]


class Function:
    """A function as a caller sees it: heading, docstring, signature and clauses."""

    def __init__(self, text, found):
        self.name, self.owner = found.name, found.owner
        self.heading = found.path() if self.owner else f"fn {self.name}"
        self.docs = docs_before(text, found.start)
        head = " ".join(text[found.start : found.head].split())
        head = re.sub(r"\( ", "(", head).replace(",)", ")").replace(", )", ")")
        self.signature = re.sub(r"^pub ((?:const |extern \"C\" )*)fn ", r"\1fn ", head)
        self.clauses = [(word, name, text[at:end]) for word, name, at, end in found.spans]

    def rank(self):
        """Functions that make a value come first, and forms that return `Busy` last. The others
        come in the order of use."""
        is_maker = self.owner and "self" not in self.signature.split("->")[0]
        name = self.name[len("try_") :] if self.does_not_wait() else self.name
        first = FIRST_CALLS.index(name) if name in FIRST_CALLS else len(FIRST_CALLS)
        return 0 if is_maker else 2 if self.does_not_wait() else 1, 0 if is_maker else first

    def does_not_wait(self):
        """Whether it is a form that returns `Busy`."""
        return self.name.startswith("try_")


def members_of(body, kind):
    """The public fields of a type, or its cases, with their docstrings."""
    for member in MEMBER.finditer(body):
        documents, is_public, name, rest = member.groups()
        if not (kind == "enum" and name[0].isupper() or is_public):
            continue
        words = " ".join(line.strip()[3:].strip() for line in documents.splitlines())
        yield from filled(words, "    /// ", "    /// ") if words else []
        if rest.endswith("{"):
            end = sources.closing(sources.blanked(body), member.end() - 1) - 1
            inner = re.sub(r"///.*", "", body[member.end() : end])
            rest = f" {{ {' '.join(inner.split()).rstrip(',')} }}"
        yield f"    {name}{rest},"


def relations_of(body):
    """The ghost members of a trait, each with the comment before it."""
    for found in re.finditer(r"((?:^    // .*\n)*)^    (ghost \w+: \{[^;]*?\});", body, re.M):
        yield from found.group(1).splitlines()
        yield f"    {' '.join(found.group(2).split())};"


class Type:
    """A type with what a caller sees of it: its public fields, or its cases, or its relations."""

    def __init__(self, text, found):
        _, kind, self.name, parameters, bracket = found.groups()
        self.docs = docs_before(text, found.start(2) - len("pub "))
        self.lines = [f"{kind} {self.name}{parameters.rstrip()}"]
        if bracket != ";":
            end = sources.closing(sources.blanked(text), found.end() - 1) - 1
            body = text[found.end() : end]
            members = list(relations_of(body) if kind == "trait" else members_of(body, kind))
            self.lines = [self.lines[0] + " {", *members, "}"] if members else self.lines


class Crate:
    """What a crate gives its callers, with the text of the file that each function is in."""

    def __init__(self, name):
        self.name, self.types, self.functions, self.uses = name, [], [], {}
        folder = os.path.join(sources.CRATES, name, "src")
        root = sources.read(os.path.join(folder, "lib.rt"))
        exported = sources.exported(root)
        for crate, listed, one in USE.findall(root):
            if crate in API:
                self.uses[crate] = sorted(set(re.findall(r"\w+", listed or one)))
        called = [f for f in sources.crate(name).functions if f.is_public]
        public = {(f.path(), tuple(f.clauses)) for f in called}
        for path in sources.files_of(folder):
            if not sources.is_test_file(path, folder):
                self.read(sources.read(path), exported, public)

    def read(self, text, exported, public):
        found = [one for one in TYPE.finditer(text) if one.group(3) in exported]
        self.types += [Type(text, one) for one in found]
        for function in sources.functions_of(text):
            if function.is_public and (function.path(), tuple(function.clauses)) in public:
                self.functions.append((Function(text, function), text))

    def place(self, name):
        """Where a type comes in the order of use, and "" for functions of none at the end."""
        first = FIRST_TYPES.get(self.name, [])
        return name == "", first.index(name) if name in first else len(first), name

    def type_names(self):
        return sorted((one.name for one in self.types), key=self.place)

    def owners(self):
        """Each type, and "" for functions of none, with its functions."""
        owned = {name: [] for name in self.type_names()}
        for function, text in self.functions:
            owned.setdefault(function.owner, []).append((function, text))
        for functions in owned.values():
            functions.sort(key=lambda pair: pair[0].rank())
        return sorted(owned.items(), key=lambda pair: self.place(pair[0]))


class Pages:
    """The pages of all crates, and where each type stands."""

    def __init__(self):
        self.crates = {name: Crate(name) for name in API}
        self.definitions = believed.Definitions()
        self.homes = {}
        for name, crate in self.crates.items():
            for one in crate.types:
                self.homes[one.name] = name, anchor(one.name)
            for one, _ in crate.functions:
                if not one.owner:
                    self.homes[one.name] = name, anchor(one.heading)

    def link(self, here, word):
        """A link from a crate's page to a type, or to a function of no type."""
        home, place = self.homes[word]
        return f"[`{word}`]({'' if home == here else home + '.md'}#{place})"

    def types_in(self, here, text, without):
        """A line of links to the types that a text names."""
        named = dict.fromkeys(re.findall(r"\b[A-Z]\w+", re.sub(r"///.*", "", text)))
        links = [self.link(here, one) for one in named if one in self.homes and one != without]
        return ["", *filled("Types: " + ", ".join(links) + ".")] if links else []

    def cited(self, name, said, text):
        """A line of links to the definitions that clauses cite."""
        keys = set(self.definitions.cited(said, name, None, believed.imports_of(text)))
        found = sorted(key for key in keys if key in self.definitions.bodies)
        links = [
            f"[`{one}`](../../crates/{crate}/specs/{module}.antt)" for crate, module, one in found
        ]
        return ["", *filled("Definitions: " + ", ".join(links) + ".")] if links else []

    def function_lines(self, name, function, text):
        yield from ("", f"### `{function.heading}`")
        for paragraph in function.docs:
            yield from ("", *filled(paragraph))
        yield from ("", "```rust", *filled(function.signature, "", "    "), "```")
        yield from self.types_in(name, function.signature, function.owner)
        if not function.clauses:
            return
        names = [clause or word for word, clause, _ in function.clauses]
        count = f"{len(names)} clauses: " if len(names) > 1 else "Clause: "
        listed = ", ".join(f"<code>{one}</code>" for one in names)
        yield from ("", "<details>", *filled(f"<summary>{count}{listed}</summary>"), "", "```text")
        for word, clause, said in function.clauses:
            yield from filled(f"{word}{' ' + clause if clause else ''}: {said}", "", "    ")
        yield "```"
        yield from self.cited(name, " ".join(said for _, _, said in function.clauses), text)
        yield from ("", "</details>")

    def contents(self, crate):
        """The table at the top of a page."""
        yield from ("", "| Type | Functions |", "|---|---|")
        for owner, functions in crate.owners():
            first = f"[`{owner}`](#{anchor(owner)})" if owner else "[no type](#functions)"
            waiting = [f for f, _ in functions if not f.does_not_wait()]
            others = [f for f, _ in functions if f.does_not_wait()]
            for which, listed in ((first, waiting), (f"{first}, without waiting", others)):
                links = [f"[`{f.name}`](#{anchor(f.heading)})" for f in listed]
                if links or which == first:
                    yield f"| {which} | {', '.join(links)} |"
        for home, words in crate.uses.items():
            links = ", ".join(self.link(crate.name, one) for one in words if one in self.homes)
            yield f"| re-exported from [`{home}`]({home}.md) | {links} |"

    def page(self, name):
        crate = self.crates[name]
        yield f"# The crate `{name}`"
        yield from ("", purpose(name).replace("](../../docs/", "](../"))
        yield from (
            "",
            *filled(
                f"For developers who call it. Each public type and function follows, with what is "
                f"proved of it. [The legend](../api.md#clauses) explains the words of the clauses. "
                f"[Mutants and tests](../../tests/promises.md#{name}) are listed by clause. "
                f"[The crate's own page](../../crates/{name}/README.md) says how it is made."
            ),
        )
        yield from self.contents(crate)
        for owner, functions in crate.owners():
            yield from ("", f"## `{owner}`" if owner else "## Functions")
            for one in crate.types:
                if one.name == owner:
                    for paragraph in one.docs:
                        yield from ("", *filled(paragraph))
                    yield from ("", "```rust", *one.lines, "```")
                    yield from self.types_in(name, "\n".join(one.lines), owner)
            for function, text in functions:
                yield from self.function_lines(name, function, text)

    def row(self, crate):
        """A crate's row of the table of crates."""
        name = crate.name
        first = re.split(r"(?<=[.:]) ", " ".join(purpose(name).split()))[0].rstrip(":.")
        first = first.replace("](../../docs/", "](")
        links = ", ".join(f"[`{one}`](api/{name}.md#{anchor(one)})" for one in crate.type_names())
        return f"| [`{name}`](api/{name}.md) | {first} | {links} |"

    def index(self):
        yield from (
            "# Rattle API",
            "",
            *filled(
                "For developers who call the crates from Rattle. Afterwards you know which crate "
                "has the call that you need, and how to read what is proved of it. Each crate has "
                "a page with every public type and function. [The tutorial](guide.md) has a whole "
                "program. `tools/reference.py --write` writes these pages."
            ),
        )
        for title, words, crates in GROUPS:
            yield from ("", f"## {title}", "", *filled(words))
            yield from ("", "| Crate | What it is | Types |", "|---|---|---|")
            yield from (self.row(self.crates[name]) for name in crates)
        yield from ("", "## Clauses", "")
        yield from filled(
            "A clause is what the prover shows for every call that meets the `requires`. Its words "
            "are those below, and the definitions that are linked under each function's clauses. "
            "Start with [the theorem](review/theorem.md), [the definitions](review/definitions.md) "
            "and [the glossary](glossary.md)."
        )
        yield from ("", "| Word | Meaning |", "|---|---|")
        yield from (f"| {word} | {meaning} |" for word, meaning in LEGEND)
