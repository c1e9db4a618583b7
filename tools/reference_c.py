"""The page of the C API, docs/c-api.md: the functions by task, then a table of those of each
header, and each under its own heading.

What a function does is a sentence of its comment. It waits if it takes a deadline. Whether it can
lack memory is what its contract in crates/store_c says. A function in plain C can if it returns
that status, or calls a function that can.
"""

import glob
import os
import re

import believed
import libraries
import sources
from reference_rattle import filled

HEADERS = {
    "lrc_coder.h": "No function of the coder waits or allocates.",
    "lrc_store.h": (
        "Under *waits*, `_wait` means that the function does not wait, and has a form that does. "
        "Under *out of memory*, *no* means that no call returns `LRC_STORE_NO_MEMORY` or "
        "`LRC_STORE_NOT_REBUILT`."
    ),
}
# What callers do with the functions of each header, in the order of use. A form that waits stands
# with the one that does not.
TASKS = {
    "lrc_coder.h": [
        ("encode a stripe", "lrc_encode lrc_encode_arrays"),
        ("rebuild a lost fragment", "lrc_rebuild lrc_rebuild_arrays"),
        ("rebuild up to four at once", "lrc_decode lrc_decode_arrays"),
        ("do so in many stripes that lack the same fragments", "lrc_plan lrc_plan_decode"),
        ("rebuild from fragments as they arrive", "lrc_recipe lrc_add"),
        ("ask whether a fragment can be rebuilt", "lrc_is_unrecoverable lrc_is_open"),
        ("change data and parities in place", "lrc_encode_add lrc_encode_add_arrays"),
        ("print a status, or the processor level", "lrc_coder_text lrc_coder_cpu"),
    ],
    "lrc_store.h": [
        (
            "open a store, and close it",
            "lrc_store_open_unjournaled lrc_store_open lrc_store_close",
        ),
        ("put a blob", "lrc_store_put"),
        ("put bytes without a copy", "lrc_slot_reserve lrc_slot_buffer lrc_store_put_from"),
        ("read bytes, or a whole blob", "lrc_store_read lrc_store_get"),
        ("read without a copy", "lrc_store_lend lrc_slot_runs lrc_slot_slices"),
        (
            "keep a version, and read it later",
            "lrc_store_hold lrc_slot_copy lrc_slot_lend lrc_slot_shape lrc_slot_lost"
            " lrc_slot_fragment",
        ),
        ("delete a blob, or ask for its shape", "lrc_store_delete lrc_store_stat"),
        ("report a lost fragment", "lrc_store_lose"),
        ("repair one, or restore it with bytes of your own", "lrc_store_repair lrc_store_restore"),
        ("repair all that is lost", "lrc_store_mend_wait"),
        (
            "do so with several threads",
            "lrc_mending_open lrc_mending_work lrc_mending_close",
        ),
        (
            "choose what is repaired",
            "lrc_store_plan lrc_store_plan_part lrc_slot_items lrc_store_mend_step lrc_slot_skip",
        ),
        ("give each thread a session", "lrc_store_split lrc_store_join lrc_slot_learn"),
        (
            "lend sessions to threads that come and go",
            "lrc_pool_open lrc_pool_take lrc_pool_give lrc_pool_close",
        ),
        (
            "use shards",
            "lrc_shards_open lrc_shards_find lrc_shards_at lrc_shards_numbers lrc_shards_mend "
            "lrc_shards_trim lrc_shards_close lrc_store_shard",
        ),
        ("watch a store", "lrc_store_numbers"),
        (
            "trim a journal, and get its entries",
            "lrc_store_trim lrc_store_trim_part lrc_store_close_to lrc_slot_entry",
        ),
        ("empty a slot", "lrc_slot_release"),
        ("make a name of any key", "lrc_store_name"),
        ("print a status, or the processor level", "lrc_store_text lrc_store_cpu"),
    ],
}
RULES = [
    "**Arguments.** Each function validates its arguments. You ensure what it cannot check: an "
    "address is not `NULL`, also at length 0, and is valid for its length. An output overlaps no "
    "other argument.",
    "**Results.** Each function that can fail returns a status, and 0 means that it is done. On "
    "any other status the outputs are unchanged, unless its comment says otherwise. "
    "[Errors](errors.md) lists all statuses, and what to do about each.",
    "**Codes.** A code is named by its number of data fragments, 12 or 6. Fragments have numbers "
    "from 0, and a set of lost ones is a number in which bit i stands for fragment i.",
    "**Slots.** The store gives you what it owns in an `lrc_slot`. Initialise it with "
    "`LRC_SLOT_EMPTY`, pass only its address, and let one thread at a time use it.",
    "**Waiting.** A call of the store returns `LRC_STORE_BUSY` if another thread is in the "
    "critical section. Its form with `_wait` at the end of the name waits, at most as long as its "
    "timeout. So do the functions of pools, shards and mendings that have a `timeout_ms`.",
    "**Signals and forks.** The coder may be called anywhere, and the store "
    "[hardly](threads.md#signals-and-fork) in a signal handler or a forked child.",
]
DECLARATION = re.compile(
    r"/\*.*?\*/"
    r"|^typedef struct (?:\{.*?^\} \w+|\w+ \w+);"
    r"|^enum \{.*?\};"
    r"|^#define LRC_SLOT_EMPTY(?:[^\n]*\\\n)*[^\n]*"
    r"|^(?:static inline )?(?:uint32_t|void|const char \*) ?lrc_\w+\([^{;]*[{;]",
    re.M | re.S,
)
# A function of a source in C, and what stands between its braces.
BODY = re.compile(r"^[\w *]*?\b(\w+)\([^;{]*\) \{\n(.*?)^\}", re.M | re.S)
FUNCTION = re.compile(r"^(?:static inline )?(?:uint32_t|void|const char \*) ?(lrc_\w+)\(")
TITLE = re.compile(r"/\* -{4} ([^.]*)\.")
# The calls of the sequential store that need memory, and what a contract says of it.
NEEDING = {("history", "Step", one) for one in ("put", "read", "lose", "repair")}
REFUSED = re.compile(r"\b(?:no_memory|not_rebuilt|NoMemory)\b")
# A definition with cases by the call, which names calls that a caller does not make.
GENERAL = {("store_c", "OnSession", "IsAfterBusy")}


def items(header):
    """The comments and declarations of a header, without guards, attributes and bodies."""
    text = libraries.without_attributes(libraries.read("include", header))
    for found in DECLARATION.finditer(text):
        said = found.group()
        is_code = FUNCTION.match(said)
        yield re.sub(r"\s*\{$", ";", said) if is_code else said


def words_of(comment):
    """The paragraphs of a comment, without its marks and its title."""
    text = re.sub(r"^/\*|\*/$|^ \*", "", comment, flags=re.M)
    return [" ".join(part.split()) for part in re.split(r"\n\s*\n", TITLE.sub("", text))]


def verb_of(function):
    return function.name.rpartition("_")[2]


class Function:
    """A function with the comment before it, what stands between, and others of that comment."""

    def __init__(self, name, comment, before, said):
        self.name, self.comment, self.lines, self.group = name, comment, [*before, said], [self]
        self.waits = "timeout_ms" in said

    def summary(self):
        """One sentence of what it does: the one that names it, or its part of the first."""
        if self.name.endswith("_arrays"):
            return f"`{self.name[: -len('_arrays')]}` with plain arrays of addresses"
        comment = self.first.comment
        texts = [one for one in words_of(comment) if not one.startswith("The functions from here")]
        sentences = [one for text in texts for one in re.split(r"(?<=[\w`)}])[.:] |\.$", text)]
        own = [one for one in sentences if one.startswith(self.name + " ")]
        if own and self.others_of_comment():
            chosen = own[0][len(self.name) + 1 :]
            return chosen[0].upper() + chosen[1:]
        return self.part_of(sentences[0])

    def others_of_comment(self):
        return [one for one in self.first.group if one is not self]

    def part_of(self, sentence):
        """The part with its own verb, of a sentence with verbs of several functions."""
        verbs = "|".join(map(verb_of, self.others_of_comment()))
        found = re.search(rf"\b{verb_of(self)} .*?(?=, and (?:{verbs}) |$)", sentence, re.I)
        chosen = found.group() if verbs and found else sentence
        return chosen if chosen == sentence else chosen[0].upper() + chosen[1:]


def functions_of(header):
    """The functions of a header, and before them what belongs to none."""
    comment, before, found, title = "", [], [], None
    for said in items(header):
        function = FUNCTION.match(said)
        if function:
            one = Function(function.group(1), comment, before, said)
            one.title, one.first = title, one if comment or title else found[-1].first
            if one.first is not one:
                one.first.group.append(one)
            found.append(one)
            comment, before, title = "", [], None
        elif TITLE.match(said):
            title = said
        elif said.startswith("/*"):
            before += [comment] if comment else []
            comment = said
        else:
            before += [*([comment] if comment else []), said]
            comment = ""
    return found


class Memory:
    """Which functions of the store can lack memory, by contracts and by the sources in C."""

    def __init__(self):
        self.definitions = believed.Definitions()
        text = sources.read(os.path.join(sources.CRATES, "store_c", "src", "lib.rt"))
        self.names = believed.imports_of(text)
        exported = (f for f in sources.functions_of(text) if f.is_exported)
        self.heads = {f.name: text[f.start : f.body] for f in exported}
        paths = sorted(glob.glob(os.path.join(libraries.TOP, "library", "store_*.c")))
        code = re.sub(r"/\*.*?\*/", "", "\n".join(map(sources.read, paths)), flags=re.S)
        self.bodies = dict(BODY.findall(code))

    def may_lack(self, name, callers=()):
        """Whether a function, or one in C that it calls, can lack memory."""
        base = re.sub(r"_wait$", "", name)
        if base in self.heads:
            return self.may_lack_by_contract(base)
        body = self.bodies.get(name, "") if name not in callers else ""
        called = set(re.findall(r"\b(\w+)\(", body)) - {name}
        return "NO_MEMORY" in body or any(self.may_lack(it, (*callers, name)) for it in called)

    def may_lack_by_contract(self, name):
        """Whether the contract of a function leaves it a status for refused memory."""
        ahead, seen = [(self.heads[name], None, self.names)], set(GENERAL)
        while ahead:
            text, module, names = ahead.pop()
            words = {names.get(word) for word in re.findall(r"\w+", text)}
            if words & NEEDING or module and REFUSED.search(text):
                return True
            for key in set(self.definitions.cited(text, "store_c", module, names)) - seen:
                seen.add(key)
                if key[0] == "store_c" and key[1] != "Status" and key in self.definitions.bodies:
                    inner = self.definitions.imports[key[:2]]
                    ahead.append((self.definitions.bodies[key], key[1], inner))
        return False


def table(functions, memory):
    """A row for each function, but one for a function and its waiting form."""
    names = {one.name for one in functions}
    head = "| Function | What it does |"
    yield from ("", head + (" Waits | Out of memory |" if memory else ""))
    yield "|---|---|---|---|" if memory else "|---|---|"
    for one in functions:
        if one.name.endswith("_wait") and one.name[: -len("_wait")] in names:
            continue
        row = f"| [`{one.name}`](#{one.name}) | {one.summary()} |"
        if memory:
            form = one.name + "_wait"
            waits = "yes" if one.waits else f"[`_wait`](#{form})" if form in names else "no"
            row += f" {waits} | {'yes' if memory.may_lack(one.name) else 'no'} |"
        yield row


def code_lines(said):
    """A block of comments and declarations."""
    yield "```c"
    for number, one in enumerate(said):
        is_with_last = number and said[number - 1].startswith("/*") and not one.startswith("/*")
        if number and not is_with_last and not one.startswith("#"):
            yield ""
        yield from one.split("\n")
    yield "```"


def function_lines(one, names):
    """The heading of a function, with its comment and its declaration."""
    yield from ("", f"### {one.name}", "")
    base = re.sub(r"_wait$", "", one.name)
    if base != one.name and base in names:
        yield from (f"The [waiting form](#waiting-forms) of [`{base}`](#{base}).", "")
    elif one.first is not one:
        yield from (f"Its comment is that of [`{one.first.name}`](#{one.first.name}).", "")
    comment = [one.comment] if one.comment else []
    yield from code_lines([*one.lines[:-1], *comment, one.lines[-1]])


def header_lines(header, note, memory):
    functions = functions_of(header)
    names = {one.name for one in functions}
    yield from ("", f"## {header}", "", *filled(note), *table(functions, memory))
    first = functions[0]
    yield from ("", f"### Rules and types of {header}", "", *code_lines(first.lines[:-1]))
    first.lines = first.lines[-1:]
    for one in functions:
        if one.title:
            title = TITLE.match(one.title).group(1).split(" of ")[0]
            yield from ("", f"### {title.capitalize()}", "", *code_lines([one.title]))
        yield from function_lines(one, names)


def overview(header):
    """What a header is for, by task."""
    yield from ("", f"### The functions of `{header}`, by task", "", "| To | Call |", "|---|---|")
    for task, names in TASKS[header]:
        yield f"| {task} | {', '.join(f'[`{one}`](#{one})' for one in names.split())} |"


def page():
    yield from (
        "# C API",
        "",
        *filled(
            "For developers in C and C++. Afterwards you know which function to call, and what it "
            "promises. The overview lists the functions of `include/lrc_coder.h` and "
            "`include/lrc_store.h` by task. Then each function follows with its comment. [The "
            "tutorial](library.md) has whole programs. `tools/reference.py --write` makes this "
            "page from the headers."
        ),
        "",
        "## Overview",
    )
    for header in HEADERS:
        yield from overview(header)
    yield from ("", "### Rules for all functions", "")
    for rule in RULES:
        yield from filled(rule, "- ", "  ")
    for header, note in HEADERS.items():
        memory = Memory() if header == "lrc_store.h" else None
        yield from header_lines(header, note, memory)
