"""Holds the documents to the rules of CONTRIBUTING.md for prose.

No date, hash, clock time or earlier build; no phrase that the rules replace; lines of at most 100
characters and sentences of at most 40 words. Tables, code and pages that a script writes may be
longer. A full stop ends a sentence; a colon or a semicolon does not.
"""

import os
import re

import reference
from sources import TOP, documents, expect_none, read

LONGEST, MOST_WORDS = 100, 40
# Pages that a script writes, and the table that tests/promises.py holds to the code.
MADE = {*reference.PAGES, "tests/promises.md"}
DIARY = [
    r"\b20\d\d-\d\d-\d\d\b",
    r"\b(?=[0-9a-f]*[a-f])(?=[0-9a-f]*[0-9])[0-9a-f]{7,10}\b",
    r"\b\d\d:\d\d\b",
    r"\b(yesterday|today|the build before|the day before|used to be|was changed)\b",
]
PHRASES = [
    r"\b(for|of|by) who\b",
    r"(^|[.:;] )Who\b",
    r"can'?t (be )?(tell|told)\b",
    r"\b(is|are) told\b",
    r"\bwhat is left\b",
    r"\bthose left\b",
    r"\bwant of memory\b",
    r"\basks? (for no|no) memory\b",
    r"\bgiven? up\b",
    r"\bthe store of one thread\b",
    r"\bwrong bod(y|ies)\b",
    r"\bexactly where\b",
    r"\bbut for\b",
    r"\bnothing of\b",
    r"\bcomes? to the same\b",
    r"\bby itself\b",
]
UNSEEN = re.compile(
    r"```.*?```|^\|[^\n]*$|^    [^\n]*$|^#[^\n]*$|^!\[[^\]]*\]\([^\n]*$", re.S | re.M
)


def wrong_lines(name, text):
    """Dates and phrases, and lines that are too long, outside of code."""
    is_code = False
    for number, line in enumerate(text.splitlines(), 1):
        if line.startswith("```"):
            is_code = not is_code
        if is_code or line.startswith("    "):
            continue
        for pattern in DIARY + PHRASES:
            found = re.search(pattern, line)
            if found:
                yield f"{name}:{number}: {found.group().strip()!r}"
        if len(line) > LONGEST and not line.startswith("|"):
            yield f"{name}:{number}: {len(line)} characters"


def long_sentences(name, text):
    words = UNSEEN.sub("", text)
    for sentence in re.split(r"(?<=[.!?])\s+|\n\s*\n|\n\s*(?:-|\d+\.) ", words):
        count = len(sentence.split())
        if count > MOST_WORDS:
            yield f"{name}: {count} words: {' '.join(sentence.split())[:90]}"


def texts(without):
    """The names and texts of all documents but these."""
    return [(it, read(os.path.join(TOP, it))) for it in documents() if it not in without]


def test_words_and_lines():
    held = texts(MADE - {"tests/promises.md"})
    expect_none(it for name, text in held for it in wrong_lines(name, text))


def test_sentences():
    expect_none(it for name, text in texts(MADE) for it in long_sentences(name, text))


def test_a_long_sentence_is_seen_behind_what_is_no_sentence():
    long = "word " * 41
    for before in ("", "| a |\n", "![a\nb](a.svg)\n", "    rt try\n", "# A\n", "```\n```\n"):
        assert len(list(long_sentences("a.md", f"{before}\n{long}.\n"))) == 1
    for unseen in (f"| {long} |", f"    {long}", f"![{long}](a.svg)", f"```\n{long}\n```"):
        assert list(long_sentences("a.md", f"{unseen}\n\nShort.\n")) == []
