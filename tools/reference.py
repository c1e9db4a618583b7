#!/usr/bin/env python3
"""Writes the pages that come from the code: tools/reference.py [--write]

docs/api.md and docs/api/ from docstrings, signatures and clauses of the crates that users call;
docs/c-api.md from the headers; and crates/README.md from crates.txt, the crates' own README.md and
their sizes. Without --write it names the pages that are not what it would write, or have a heading
twice, and fails if there is one.
"""

import functools
import os
import re
import sys

TOP = os.path.dirname(os.path.dirname(os.path.abspath(__file__)))
sys.path[:0] = [os.path.join(TOP, "tests"), os.path.join(TOP, "tools")]

import draw_layers  # noqa: E402
import reference_c  # noqa: E402
import reference_rattle  # noqa: E402
import sources  # noqa: E402
from reference_rattle import anchor, filled, purpose  # noqa: E402


def layers():
    """The crates of crates.txt with those that they use, under the comments before them."""
    title = None
    for line in sources.read(os.path.join(TOP, "crates.txt")).splitlines():
        if line.startswith("#"):
            title = line[2:].rstrip(".")
        elif line.strip():
            name, used = re.match(r"(\w+)[^:]*:(.*)", line).groups()
            yield title, name, used.split()


def crates_page():
    yield from (
        "# Crates",
        "",
        *filled(
            "For readers of the code: what each crate is, from the bottom up, and which "
            "crates it uses. Start with [`history`](history/README.md), the sequential "
            "specification. Then read [`shared`](shared/README.md), the store, and "
            "[`play`](play/README.md), which has the theorem about the program. "
            "`tools/reference.py --write` writes this page from `crates.txt` and the crates' "
            "own `README.md`."
        ),
        "",
        *filled(sizes()),
        "",
        *filled(f"![{draw_layers.DESCRIPTION}](../docs/pictures/layers.svg)"),
    )
    here = {name for _, name, _ in layers()}
    last = None
    for title, name, used in layers():
        if title != last:
            yield from (
                "",
                f"## {title}" if title else "",
                "",
                "| Crate | What it is | Uses |",
                "|---|---|---|",
            )
            last = title
        first = re.split(r"(?<=[.:]) ", " ".join(purpose(name).split()))[0].rstrip(":.")
        first = re.sub(r"\]\((?:\.\./)+", "](../", first)
        uses = ", ".join(one for one in used if one in here)
        yield f"| [`{name}`]({name}/README.md) | {first} | {uses} |"


# ---- the sizes


def lines_of(folder, ending, comment):
    """How many lines the crates' files in a folder have, without blank ones and comments."""
    count = 0
    for crate in os.listdir(sources.CRATES):
        for at, folders, names in os.walk(os.path.join(sources.CRATES, crate, folder)):
            folders[:] = set(folders) - {"out"}
            for name in names:
                if name.endswith(ending):
                    lines = map(str.strip, sources.read(os.path.join(at, name)).splitlines())
                    count += sum(bool(line) and not line.startswith(comment) for line in lines)
    return f"{round(count, 2 - len(str(count))):,}"


def sizes():
    """How large they are: lines to two digits, clauses and mutants as tests/promises.py does."""
    crates = sources.crates().values()
    code, specs = lines_of("src", ".rt", "//"), lines_of("specs", ".antt", "--")
    clauses = sum(len(f.clauses) for crate in crates for f in crate.public())
    mutants = sum(len(crate.edits) for crate in crates)
    return (
        f"They have {code} lines of code, {specs} of definitions and "
        f"{lines_of('proofs', '.antt', '--')} of proofs. The public functions have {clauses:,} "
        f"clauses, and the prover rejects {mutants} mutants."
    )


@functools.lru_cache(maxsize=None)
def rattle():
    return reference_rattle.Pages()


PAGES = {
    "docs/api.md": lambda: rattle().index(),
    **{
        f"docs/api/{name}.md": functools.partial(lambda name: rattle().page(name), name)
        for name in reference_rattle.API
    },
    "docs/c-api.md": reference_c.page,
    "crates/README.md": crates_page,
}


def headings_twice(text):
    """The headings of a page with the same anchor as one above: a link would lead there."""
    anchors = [anchor(one.replace("`", "")) for one in re.findall(r"^#+ (.*)$", text, re.M)]
    return sorted({one for one in anchors if anchors.count(one) > 1})


def wrong_pages():
    """The pages that are not what the code makes them."""
    for path, page in PAGES.items():
        full, wanted = os.path.join(TOP, path), "\n".join(page()) + "\n"
        if not os.path.exists(full) or sources.read(full) != wanted:
            yield f"{path}: tools/reference.py --write makes another page"
        yield from (f"{path}: the heading #{one} is there twice" for one in headings_twice(wanted))


def write(path, text):
    os.makedirs(os.path.dirname(path), exist_ok=True)
    with open(path, "w", encoding="utf-8") as out:
        out.write(text)


def main(words):
    if "--write" in words:
        for path, page in PAGES.items():
            write(os.path.join(TOP, path), "\n".join(page()) + "\n")
    wrong = list(wrong_pages())
    print(*wrong, f"{len(PAGES)} pages, {len(wrong)} wrong", sep="\n")
    return 1 if wrong else 0


if __name__ == "__main__":
    sys.exit(main(sys.argv[1:]))
