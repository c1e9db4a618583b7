"""Tests what tools/reference.py makes, by facts that stand elsewhere. That each page is what the
code makes it, tests/test_documents.py compares.
"""

import functools
import re

import pytest
import reference
import reference_c
import reference_rattle


@functools.lru_cache(maxsize=None)
def text_of(name):
    return "\n".join(reference.PAGES[name]())


def read_of_calls():
    """What the page of the calls by name says of `read`."""
    page = text_of("docs/api/named_calls.md")
    return page.split("\n### `WaitingCalls::read`\n")[1].split("\n### ")[0]


def test_each_public_function_has_a_heading_and_a_link():
    for name, crate in reference.rattle().crates.items():
        page = text_of(f"docs/api/{name}.md")
        for function, _ in crate.functions:
            assert f"\n### `{function.heading}`\n" in page
            assert f"](#{reference.anchor(function.heading)})" in page


def test_clauses_are_folded_and_their_definitions_linked():
    read = read_of_calls()
    fold = read[read.index("<details>") : read.index("</details>")]
    assert "ensures called: Self.called pass.old" in fold
    assert "[`GrantedIn`](../../crates/shared/specs/Calls.antt)" in fold
    assert "ensures" not in read.replace(fold, "")


def test_types_of_a_signature_are_linked():
    for link in ("[`Name`](history.md#name)", "[`Answer`](book.md#answer)"):
        assert link in read_of_calls()


def test_relations_of_a_trait_are_shown():
    page = text_of("docs/api/named_calls.md")
    assert "    // The pass is one to this store.\n    ghost is_to: {" in page


def test_types_and_calls_come_in_the_order_of_use():
    page = text_of("docs/api/shared.md")
    rows = re.findall(r"^\| (\[`\w+`\]\(#\w+\).*?) \| (.*) \|$", page, re.M)
    stores = ["[`Store`](#store)", "[`Store`](#store), without waiting"]
    wanted = [*stores, "[`Pass`](#pass)", "[`Receipt`](#receipt)"]
    assert [first for first, _ in rows] == wanted
    calls = [re.findall(r"`(\w+)`", cell) for _, cell in rows]
    assert calls[0][:4] == ["open", "open_with", "repair", "plan"]
    assert calls[1][:2] == ["try_repair", "try_plan"]
    assert calls[2][:2] == ["split", "join"]


def test_what_comes_first_is_there():
    crates = reference.rattle().crates
    for name, types in reference_rattle.FIRST_TYPES.items():
        assert crates[name].type_names()[: len(types)] == types
    names = {function.name for crate in crates.values() for function, _ in crate.functions}
    assert set(reference_rattle.FIRST_CALLS) - names == set()


def test_no_two_crates_have_a_type_of_one_name():
    names = [one.name for crate in reference.rattle().crates.values() for one in crate.types]
    assert sorted(names) == sorted(set(names))


def test_the_legend_has_every_sign_that_clauses_have():
    legend = "".join(word for word, _ in reference_rattle.LEGEND)
    assert len(reference_rattle.LEGEND) == 15
    for name in reference_rattle.API:
        page = text_of(f"docs/api/{name}.md")
        clauses = "".join(re.findall(r"^```text\n(.*?)^```$", page, re.M | re.S))
        words = re.findall(r"[≡≢×⊎↔⊥λ∷]|\b(?:On|If)(?:Ok|Err|Some|None)\b", clauses)
        assert [one for one in set(words) if one not in legend] == []


@pytest.fixture(scope="module")
def rows():
    """The cells of each function of the C API, by its name."""
    rows = re.findall(r"^\| \[`(\w+)`\]\(#\1\) \| (.*) \|$", text_of("docs/c-api.md"), re.M)
    return {name: cells.split(" | ") for name, cells in rows}


def test_each_function_has_a_row_or_is_the_waiting_form_of_one(rows):
    for header in reference_c.HEADERS:
        for one in reference_c.functions_of(header):
            base = re.sub(r"_wait$", "", one.name)
            assert one.name in rows or base in rows, one.name


def test_each_function_has_one_task_or_is_the_waiting_form_of_one():
    for header in reference_c.HEADERS:
        names = [one.name for one in reference_c.functions_of(header)]
        forms = [name for name in names if re.sub(r"_wait$", "", name) in set(names) - {name}]
        tasks = [one for _, called in reference_c.TASKS[header] for one in called.split()]
        assert sorted(tasks) == sorted(set(names) - set(forms))


def test_the_overview_fits_on_two_printed_pages():
    """A page has about 60 lines of 90 characters, and a row breaks in its second cell."""
    overview = text_of("docs/c-api.md").split("\n## lrc_coder.h\n")[0]
    shown = re.sub(r"\]\([^)]*\)", "]", overview).splitlines()
    assert sum(1 + len(line) // 90 for line in shown) < 120


def test_what_waits(rows):
    assert rows["lrc_store_put"][1] == "[`_wait`](#lrc_store_put_wait)"
    assert rows["lrc_pool_take"][1] == "yes"
    assert rows["lrc_slot_skip"][1] == "no"


def test_what_may_be_out_of_memory(rows):
    """By crates/session/specs/KnownFault.antt, and by the sources in C."""
    stores = "put read lose repair open lend hold get mend_step mend_wait"
    others = "pool_open pool_take shards_open shards_mend mending_open mending_work"
    for name in [*(f"store_{it}" for it in stores.split()), *others.split()]:
        assert rows[f"lrc_{name}"][2] == "yes", name
    stores = "delete stat numbers join close text name"
    others = "pool_give pool_close shards_find shards_at shards_close mending_close"
    for name in [*(f"store_{it}" for it in stores.split()), *others.split()]:
        assert rows[f"lrc_{name}"][2] == "no", name


def test_the_page_of_the_crates_has_the_sizes():
    assert re.search(r"^They have [\d,]+ lines of .* rejects \d+ mutants\.$", reference.sizes())
    assert reference.sizes() in " ".join(text_of("crates/README.md").split())
