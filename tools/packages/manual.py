"""The man pages: those of the programs are written by hand, those of the libraries are their
headers.

A page of section 3 has the comments and declarations of a header in their order. The body of an
inline function, and what only the preprocessor reads, is left out.
"""

import os
import re

import libraries
import package_files

INLINE = "static inline "
PAGES = os.path.join("packaging", "man")
# What a header has at the beginning of a line, in the order of trial.
PARTS = re.compile(
    r"/\*(?P<comment>.*?)\*/"
    r"|^(?P<inline>static inline [^;{]*\))\s*\{.*?^\}"
    r"|^(?P<type>(?:enum|typedef struct) \{.*?\}[^;]*;)"
    r"|^(?P<function>(?:const )?\w+ \*?lrc_\w+\([^;{]*\);)"
    r"|^(?P<other>typedef struct \w+ \w+;)",
    re.S | re.M,
)
HEADING = re.compile(r"---- ([^.,]*)(, [^.]*)?\. (.*)", re.S)


def escaped(text):
    """A line as roff shows it: no character of it is a command."""
    text = text.replace("\\", "\\e").replace("-", "\\-")
    return f"\\&{text}" if text.startswith((".", "'")) else text


def lines_of(comment):
    """The lines of a comment without its stars."""
    return [re.sub(r"^ \* ?", "", line).rstrip() for line in f" * {comment.strip()}".split("\n")]


def prose(lines):
    """Lines of roff: paragraphs, and as they stand those that are indented."""
    is_shown = False
    for line in lines:
        if line.startswith("    ") != is_shown and line:
            is_shown = not is_shown
            yield ".nf" if is_shown else ".fi"
        if line:
            yield escaped(line)
        elif not is_shown:
            yield ".PP"
    if is_shown:
        yield ".fi"


def verbatim(text):
    """Lines of roff that show a declaration as it stands."""
    return [".PP", ".nf", *(f"\\fB{escaped(line)}\\fP" if line else "" for line in text), ".fi"]


def section(comment):
    """The heading of a part of the header, and what follows it; no heading if there is none."""
    text = "\n".join(lines_of(comment))
    found = HEADING.match(" ".join(text.split("\n")) if text.startswith("----") else "")
    if not found:
        return [], text.split("\n")
    heading = f'.SS "{escaped(found.group(1).replace("`", ""))}"'
    more = (found.group(2) or "").lstrip(", ")
    rest = f"{more[:1].upper()}{more[1:]}. {found.group(3)}" if more else found.group(3)
    return [heading], [rest]


def declarations(text):
    """Lines of roff for what follows the first comment: each declaration, and its comment below."""
    said = []
    for part in PARTS.finditer(text):
        if part["comment"] is not None:
            # a comment with no declaration below it is about what follows
            yield from said
            heading, lines = section(part["comment"])
            said = [".RS 4", *prose(lines), ".RE"]
            if heading:
                yield from [*heading, *prose(lines)]
                said = []
            continue
        shown = part["type"] or part["function"] or part["other"]
        if part["inline"]:
            shown = part["inline"].replace("\n" + " " * len(INLINE), "\n")[len(INLINE) :] + ";"
        yield from verbatim(shown.split("\n"))
        if not re.match(r"\n\w", text[part.end() :]):
            yield from said
            said = []


def of_header(name):
    """The page of a library."""
    text = libraries.without_attributes(libraries.read("include", f"{name}.h"))
    first, *_ = PARTS.finditer(text)
    rest = text[first.end() :]
    other = next(it for it in libraries.LIBRARIES if it != name)
    page = [
        f'.TH {name.upper()} 3 "" "lrcstore {libraries.version()}" "lrcstore"',
        ".SH NAME",
        f"{name} \\- {escaped(package_files.WHAT[name])}",
        ".SH SYNOPSIS",
        ".nf",
        f"\\fB#include <{name}.h>\\fP",
        "",
        f"cc program.c $(pkg\\-config \\-\\-cflags \\-\\-libs {name})",
        ".fi",
        ".SH DESCRIPTION",
        *prose(lines_of(first["comment"])),
        ".SH DECLARATIONS",
        *declarations(rest),
        ".SH SEE ALSO",
        ".BR lrcstore (1),",
        f".BR {other} (3)",
    ]
    return "\n".join(page) + "\n"


def of_program(name):
    """The page of a program."""
    return libraries.read(PAGES, f"{name}.1.in").replace("@VERSION@", libraries.version())
