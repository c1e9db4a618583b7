"""The documents' code is the code.

Each block of Rattle is part of `demo_hello` or `demo_guide`, each block of C, C++, Python or Go
part of a file in bindings/ or examples/, and each block `text` a clause of a function, or what a
program prints. Links lead to files and headings, paths exist, and scripts can be executed. Pages
that a script writes are what it writes. What a page says of a picture is what the picture says of
itself. Each step of a walk in docs/architecture.md is a function of the named crate and file, which
the step above calls, and each form a type. Every crate has a README.md, every page a line in
docs/README.md, every status a place in docs/errors.md. Figures with another in brackets are those
of bench/results/.
"""

import glob
import html
import os
import re
import textwrap

import believed
import promises
import pytest
import reference
import sharded
import sources
from libraries import read as page
from sources import CRATES, TOP, expect_none, read

PROGRAMS = ("demo_hello", "demo_guide")
PRINTING = (*PROGRAMS, "demo_survey")
CODE = (".c", ".cpp", ".py", ".rs", ".go")
FENCE = re.compile(r"^```(\w*)\n(.*?)^```$", re.M | re.S)
QUOTED = re.compile(r"^(?:\d +)?([\w:]+) +(ensures .*)$")
NAMED = re.compile(r"`([A-Za-z]\w*(?:::\w+)*)`: (`\w+`(?:, `\w+`)*)")
LINK = re.compile(r"\]\(([^)#:\s]*)(?:#([\w-]+))?\)")
FOLDERS = "bench|bindings|crates|docs|examples|include|integrations|packaging|scripts|tests|tools"
PICTURE = re.compile(r"!\[([^\]]*)\]\(([^)]*\.svg)\)")
PATH = re.compile(rf"`((?:{FOLDERS})/[\w./-]*\w)`")
COMMAND = re.compile(rf"(?<![\w./$-])((?:{FOLDERS})/[\w./-]*\w)")
FIGURE = re.compile(r"\b\d[\d.]* \(\d+\.\d+\)")
FLOW = "docs/architecture.md"
WALKS, FORMS = ("A script", "A put", "A degraded read"), ("Forms",)
STEP = re.compile(r"( *)(\w+)::(\w+(?:::\w+)?) +(\w+\.rt) +\S")
NAME = re.compile(r"`(\w+)::(\w+(?:::\w+)?)`")
TYPE = re.compile(r"^pub(?:\(\w+\))? (?:struct|enum) (\w+)", re.M)
CHECKED_CLAUSES = ("README.md", "docs/review/theorem.md", "docs/review/proof.md", "docs/codes.md")


def spaced(text):
    """The text with each run of blanks as one blank."""
    return " ".join(text.split())


def is_part(block, text):
    """Whether the lines of a block are consecutive lines of a text, less an indent."""
    wanted, lines = block.splitlines(), text.splitlines()
    first = wanted[0].strip()
    starts = [at for at, line in enumerate(lines) if line.strip() == first]
    parts = ("\n".join(lines[at : at + len(wanted)]) for at in starts)
    return any(textwrap.dedent(part).splitlines() == wanted for part in parts)


class Code:
    """What blocks are compared with: sources of programs, of bindings, and what programs print."""

    def __init__(self):
        rattle = [it for name in PROGRAMS for it in sources.files_of(f"{CRATES}/{name}/src")]
        bound = [
            path
            for folder in ("bindings", "examples")
            for path in glob.glob(os.path.join(TOP, folder, "**", "*.*"), recursive=True)
        ]
        printed = [os.path.join(CRATES, name, "stdout") for name in PRINTING]
        printed += glob.glob(os.path.join(TOP, "scripts", "*.txt"))
        self.rust = [read(path) for path in rattle]
        self.bound = [read(path) for path in bound if path.endswith(CODE)]
        self.printed = [read(path) for path in printed]
        texts = [read(path) for path in sources.files_of(CRATES)]
        self.functions = [(text, f) for text in texts for f in sources.functions_of(text)]
        self.clauses = {(f.path(), clause) for _, f in self.functions for clause in f.clauses}

    def texts(self, language):
        if language == "rust":
            return self.rust + self.bound
        if language in ("c", "cpp", "python", "go"):
            return self.bound
        return self.printed if language == "text" else None

    def is_clause(self, function, clause):
        """Whether a clause is in the header of a function of this name."""
        heads = (text[f.start : f.end] for text, f in self.functions if f.path() == function)
        return any(spaced(clause) in spaced(head) for head in heads)


def quotes(block):
    """The clauses that a block quotes, each with its function."""
    found = []
    for line in block.splitlines():
        quoted = QUOTED.match(line)
        if quoted:
            found.append([quoted.group(1), quoted.group(2)])
        elif found:
            found[-1][1] += " " + line
    return found


def wrong_blocks(name, text, code):
    for language, block in FENCE.findall(text):
        clauses, texts = quotes(block), code.texts(language)
        for function, clause in clauses:
            if not code.is_clause(function, clause):
                yield f"{name}: no clause of {function} is: {spaced(clause)}"
        if not clauses and texts is not None and not any(is_part(block, one) for one in texts):
            yield f"{name}: no file has the block that begins {block.splitlines()[0]}"
    if name in CHECKED_CLAUSES:
        for function, listed in NAMED.findall(text):
            for clause in re.findall(r"`(\w+)`", listed):
                if (function, clause) not in code.clauses:
                    yield f"{name}: {function} has no clause {clause}"


def anchors(text):
    """The anchors of a page's headings, as web hosts make them."""
    for heading in re.findall(r"^#+ (.*)$", text, re.M):
        yield re.sub(r"[^\w\- ]", "", heading.lower().replace("`", "")).replace(" ", "-")


def wrong_pictures(name, text):
    """Pictures whose words, for readers who see none, are not those of the picture itself."""
    folder = os.path.dirname(os.path.join(TOP, name))
    for words, link in PICTURE.findall(text):
        path = os.path.join(folder, link)
        found = re.search(r"<desc>(.*?)</desc>", read(path)) if os.path.exists(path) else None
        if not found or html.unescape(found.group(1)) != spaced(words):
            yield f"{name}: {link} shows something else than: {spaced(words)}"


def wrong_links(name, text):
    folder = os.path.dirname(os.path.join(TOP, name))
    for link, anchor in LINK.findall(text):
        path = os.path.normpath(os.path.join(folder, link)) if link else os.path.join(TOP, name)
        if not os.path.exists(path):
            yield f"{name}: no file is {link}"
        elif anchor and path.endswith(".md") and anchor not in anchors(read(path)):
            yield f"{name}: {link} has no heading #{anchor}"
    commands = "\n".join(line for line in text.splitlines() if line.startswith("    "))
    for path in PATH.findall(text) + COMMAND.findall(commands):
        file = os.path.join(TOP, path)
        if any(word in path for word in ("NAME", "mine", "FOLDER", "/out", "liblrc_")):
            continue
        if not os.path.exists(file):
            yield f"{name}: no file is {path}"
        elif f"\n    {path}" in text and not os.access(file, os.X_OK):
            yield f"{name}: {path} can't be executed"


class Named:
    """What a crate's files name: the text of each function, by its path and file, and the types."""

    def __init__(self, crate):
        source = os.path.join(CRATES, crate, "src")
        self.bodies, self.types = {}, set()
        for path in sources.files_of(source):
            text, file = read(path), os.path.basename(path)
            self.types |= set(TYPE.findall(text))
            for f in sources.functions_of(text):
                self.bodies[f.path(), file] = text[f.start : f.end]

    def has(self, name):
        return name in self.types or any(name == path for path, _ in self.bodies)


def section(text, heading):
    """What stands below a heading, up to the next one; empty if the page has no such heading."""
    found = re.search(rf"^## {re.escape(heading)}\n(.*?)(?=^## |\Z)", text, re.M | re.S)
    return found.group(1) if found else ""


def wrong_steps(walk, named):
    """The steps that are no function of their file, or that the step above does not call."""
    above = []
    for line in filter(str.strip, walk.splitlines()):
        step = STEP.match(line)
        if not step:
            yield f"no step: {line.strip()}"
            continue
        depth, crate, name, file = len(step[1]), step[2], step[3], step[4]
        body = named[crate].bodies.get((name, file)) if crate in named else None
        if body is None:
            yield f"{crate} has no function {name} in {file}"
            continue
        above = [(at, caller, text) for at, caller, text in above if at < depth]
        called = re.compile(rf"\b{name.split('::')[-1]}\b")
        if above and not called.search(sources.blanked(above[-1][2])):
            yield f"{above[-1][1]} does not call {crate}::{name}"
        above.append((depth, f"{crate}::{name}", body))


def wrong_walks(name, text, code):
    """The steps and forms of a page about the flow of a call that the code doesn't have."""
    named = {crate: Named(crate) for crate in sources.crates()}
    for heading in WALKS:
        walks = [block for language, block in FENCE.findall(section(text, heading)) if not language]
        if not walks:
            yield f"{name}: no walk is below {heading}"
        for walk in walks:
            yield from (f"{name}: {wrong}" for wrong in wrong_steps(walk, named))
    for heading in FORMS:
        forms = NAME.findall(section(text, heading))
        if not forms:
            yield f"{name}: no form is below {heading}"
        for crate, form in forms:
            if crate in named and not named[crate].has(form):
                yield f"{name}: {crate} has no {form}"
            used = re.compile(rf"^use {crate}::[^;]*\b{form}\b", re.M)
            if crate not in named and not any(used.search(one) for one, _ in code.functions):
                yield f"{name}: no crate uses {form} of {crate}"


def texts():
    return [(name, page(name)) for name in sources.documents()]


@pytest.fixture(scope="module")
def code():
    return Code()


def test_blocks_of_code(code):
    held = [(name, text) for name, text in texts() if name not in reference.PAGES]
    expect_none(it for name, text in held for it in wrong_blocks(name, text, code))


def test_links():
    expect_none(it for name, text in texts() for it in wrong_links(name, text))


def test_words_of_pictures():
    expect_none(it for name, text in texts() for it in wrong_pictures(name, text))


def test_walks_and_forms(code):
    expect_none(wrong_walks(FLOW, page(FLOW), code))


def test_figures_in_brackets():
    """Those of README.md stand in docs/performance.md, and those in the results that are kept."""
    results = "\n".join(map(read, glob.glob(os.path.join(TOP, "bench", "results", "*.txt"))))
    shown = page("docs", "performance.md")
    assert [it for it in FIGURE.findall(page("README.md")) if it not in shown] == []
    assert [it for it in FIGURE.findall(shown) if it not in results] == []


def test_crates_and_pages_are_listed():
    """Each crate has a README.md, and docs/README.md lists each page."""
    pages = {os.path.relpath(it, f"{TOP}/docs") for it in glob.glob(f"{TOP}/docs/*.md")}
    pages |= {f"review/{it}" for it in os.listdir(f"{TOP}/docs/review") if it.endswith(".md")}
    index = page("docs", "README.md")
    assert {it for it in pages if f"]({it})" not in index} == {"README.md"}
    crates = sources.crates()
    assert [it for it in crates if not os.path.exists(f"{CRATES}/{it}/README.md")] == []


def test_errors_are_listed():
    """docs/errors.md has each status, and each fault of Rattle."""
    names = [
        name
        for header, prefix in (("lrc_store.h", "LRC_STORE_"), ("lrc_coder.h", "LRC_"))
        for name in re.findall(rf"^    {prefix}(\w+) = \d", page("include", header), re.M)
    ]
    text = page("crates", "sealed", "src", "fault.rt")
    faults = re.search(r"pub enum Fault \{(.*?)^\}", text, re.S | re.M).group(1)
    errors = page("docs", "errors.md")
    names += re.findall(r"^    (\w+),", faults, re.M)
    assert [it for it in names if f"`{it}`" not in errors] == []


def test_promises():
    assert promises.main([]) == 0


def test_definitions_to_believe():
    believed.main([])


@pytest.mark.parametrize("wrong", [reference.wrong_pages, sharded.wrong_pages])
def test_pages(wrong):
    expect_none(wrong())
