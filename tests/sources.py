"""What the crates have: public functions with their clauses, must-fail edits with the function that
each changes, and tests."""

import os
import re
from dataclasses import dataclass, field
from pathlib import Path

TOP = os.path.dirname(os.path.dirname(os.path.abspath(__file__)))
CRATES = os.path.join(TOP, "crates")
ITEM = re.compile(
    r"(?P<cfg>#\[test\])|(?P<impl>\b(?:impl|pub trait)\b[^{;]*\{)|(?P<open>\{)|(?P<close>\})"
    r"|(?P<fn>\b(?:pub(?:\([a-z]+\))?\s+)?(?:const\s+|unsafe\s+|extern\s+)*fn\s+(?P<name>\w+))"
)
CLAUSE = re.compile(r"\s*(requires|ensures)\*?(?:\s+(\w+))?\s*\{")
# From the end of a signature, or of a clause, to the next clause or the body.
NEXT = re.compile(r"[^{};]*?(?=\b(?:requires|ensures)\b|\{|;)", re.S)
RESULT = "result"


def read(path):
    return Path(path).read_text("utf-8")


def documents():
    """The documents, with paths from the top."""
    for at, folders, names in os.walk(TOP):
        own = (it for it in folders if it not in ("out", "target", "data"))
        folders[:] = sorted(it for it in own if not it.startswith("."))
        for name in sorted(names):
            if name.endswith(".md"):
                yield os.path.relpath(os.path.join(at, name), TOP)


def expect_none(complaints):
    """Fails if there is a complaint, with each on its line."""
    complaints = list(complaints)
    assert not complaints, "\n".join(complaints)


def blanked(code):
    """The code with comments, strings, characters and the semicolons of array types as blanks, so
    that its brackets match."""

    def blank(found):
        return re.sub(r"[^\n]", " ", found.group())

    code = re.sub(r"//[^\n]*|b?\"(?:\\[\s\S]|[^\"\\])*\"|b?'(?:\\.[^']*|[^'\\\n])'", blank, code)
    return re.sub(r";(?=[^][{};]*\])", " ", code)


def closing(code, start):
    """The place behind the bracket that closes the one at `start`."""
    pairs, depth = {"{": "}", "(": ")", "[": "]"}, 0
    opened, closed = code[start], pairs[code[start]]
    for place in range(start, len(code)):
        depth += (code[place] == opened) - (code[place] == closed)
        if depth == 0:
            return place + 1
    raise ValueError("a bracket is not closed")


@dataclass
class Function:
    """A function: its type, if it is a method, its name, and which part of the file it is. Its
    signature ends at `head`, and its body begins at `body`. Of each clause there are the word, the
    name, and where its content begins and ends."""

    owner: str
    name: str
    is_public: bool
    is_exported: bool
    is_test: bool
    start: int
    head: int
    spans: list
    body: int
    end: int

    @property
    def clauses(self):
        """The names of what it ensures, in order."""
        return [name or RESULT for word, name, *_ in self.spans if word == "ensures"]

    def path(self):
        return f"{self.owner}::{self.name}" if self.owner else self.name


@dataclass
class Crate:
    name: str
    functions: list = field(default_factory=list)
    edits: dict = field(default_factory=dict)
    misnamed: list = field(default_factory=list)
    tests: list = field(default_factory=list)
    is_program: bool = False

    def public(self):
        return [f for f in self.functions if f.is_public and f.clauses]

    def named(self, word):
        """The functions that a word names: `put`, or `Store::put` where several types have one."""
        return [f for f in self.functions if f.path() == word] or [
            f for f in self.functions if f.name == word
        ]


def owner_of(header):
    """The type of an `impl`: what stands behind `for`, or else behind `impl`, without its
    parameters. The name of a trait."""
    if header.startswith("pub trait"):
        return re.match(r"pub trait\s+(\w+)", header).group(1)
    header = re.sub(r"^impl\s*(<(?:[^<>]|<[^<>]*>)*>)?", "", header).strip(" {\n")
    header = header.split(" for ")[-1].strip()
    named = re.match(r"[&\w:' ]*?(\w+)\s*(?:<|$|\swhere)", header)
    return named.group(1) if named else ""


def function_at(code, found, owner, is_test, in_trait):
    """The function whose header is found, with its clauses and its body. In a public trait each is
    public."""
    place = code.index("(", found.end())
    angle = code.find("<", found.end(), place)
    if angle >= 0:
        place = code.index("(", matching_angle(code, angle))
    head = body = NEXT.match(code, closing(code, place)).end()
    spans, clause = [], CLAUSE.match(code, head)
    while clause:
        end = closing(code, clause.end() - 1)
        spans.append((*clause.groups(), clause.end(), end - 1))
        body = NEXT.match(code, end).end()
        clause = CLAUSE.match(code, body)
    end = closing(code, body) if code[body] == "{" else body
    is_public = in_trait or bool(re.match(r"pub\s", found.group()))
    is_exported = is_public and "extern" in found.group().split()
    kind = (is_public, is_exported, is_test)
    return Function(owner, found.group("name"), *kind, found.start(), head, spans, body, end)


def matching_angle(code, place):
    depth = 0
    for at in range(place, len(code)):
        if code[at] == "<":
            depth += 1
        elif code[at] == ">" and code[at - 1] not in "-=":
            depth -= 1
            if depth == 0:
                return at + 1
    raise ValueError("a list of type parameters is not closed")


def functions_of(text):
    """The functions of a file, in order."""
    code, owners, traits, found, place, is_test = blanked(text), [], set(), [], 0, False
    while True:
        item = ITEM.search(code, place)
        if not item:
            return found
        place = item.end()
        if item.group("cfg"):
            is_test = True
        elif item.group("impl"):
            owners.append(owner_of(item.group("impl")))
            traits |= {owners[-1]} if item.group("impl").startswith("pub trait") else set()
        elif item.group("fn"):
            owner = next((o for o in reversed(owners) if o), "")
            function = function_at(code, item, owner, is_test, owner in traits)
            found.append(function)
            place, is_test = function.end, False
        elif item.group("open"):
            owners.append("")
        elif owners:
            owners.pop()


def files_of(folder):
    for at, folders, names in os.walk(folder):
        folders[:] = sorted(set(folders) - {"out"})
        yield from (os.path.join(at, name) for name in sorted(names) if name.endswith(".rt"))


def is_test_file(path, folder):
    parts = os.path.relpath(path, folder).split(os.sep)
    return parts[0] in ("tests", "tests.rt")


def exported(root):
    """The names that a library's root gives its callers."""
    names = set(re.findall(r"^pub (?:struct|enum|trait|fn|type) (\w+)", root, re.M))
    for path in re.findall(r"^pub use ([^;]+);", root, re.M):
        names |= set(
            re.findall(r"\w+", path.split("::")[-1] if "{" not in path else path[path.index("{") :])
        )
    return names


def edit_target(edit, texts, functions):
    """The function that an edit changes first, as its file and path; and each change as its old and
    new text."""
    pairs = re.findall(r"^old:[ \t]?(.*)\nnew:[ \t]?(.*)$", edit, re.M)
    path = re.search(r"^file: *(\S+)", edit, re.M).group(1)
    place = texts.get(path, "").find(pairs[0][0])
    inside = [f for f in functions.get(path, []) if f.start <= place < f.end]
    return path, inside[-1] if inside else None, pairs


def edit_place(path, target):
    """What stands before an edit's name: the function that it changes first, or its file."""
    return target.path().replace("::", ".") if target else os.path.basename(path)[: -len(".rt")]


def crate(name):
    folder = os.path.join(CRATES, name)
    source = os.path.join(folder, "src")
    result, texts, functions = Crate(name), {}, {}
    root = os.path.join(source, "lib.rt")
    result.is_program = not os.path.exists(root)
    names = set() if result.is_program else exported(read(root))
    for path in files_of(source):
        text, inner = read(path), "src/" + os.path.relpath(path, source).replace(os.sep, "/")
        texts[inner], functions[inner] = text, functions_of(text)
        if is_test_file(path, source):
            result.tests += [f.name for f in functions[inner] if f.is_test]
            continue
        for function in functions[inner]:
            function.is_public = (
                function.is_exported
                or function.is_public
                and (function.owner or function.name) in names
            )
            result.functions.append(function)
    edits = os.path.join(folder, "must-fail")
    for file in sorted(os.listdir(edits)) if os.path.isdir(edits) else []:
        if file.endswith(".edit"):
            place, _, name = file[: -len(".edit")].rpartition(".")
            if name in result.edits:
                result.misnamed.append((file, "a name of its own in its crate"))
            result.edits[name] = path, target, _ = edit_target(
                read(os.path.join(edits, file)), texts, functions
            )
            if place != edit_place(path, target):
                result.misnamed.append((file, f"{edit_place(path, target)}.{name}.edit"))
    return result


def crates():
    """All crates, in the order of crates.txt."""
    lines = read(os.path.join(TOP, "crates.txt")).splitlines()
    names = [re.match(r"\w+", row).group() for row in lines if re.match(r"\w", row)]
    return {name: crate(name) for name in names}
