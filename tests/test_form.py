"""Tests that sources have one form, that types of Python's modules fit, and that planted faults
apply. They change nothing."""

import pytest
from building import TOP, output, run

FORMS = {
    ("*.c", "*.h", "*.hpp", "*.cpp", "*.cc"): ["clang-format", "--dry-run", "-Werror"],
    ("*.sh", ".ci/run"): ["shellcheck", "--external-sources"],
    ("*.rs",): ["rustfmt", "--check", "--edition", "2021"],
}


@pytest.mark.parametrize("endings", FORMS)
def test_form(endings):
    run(*FORMS[endings], *output("git", "ls-files", *endings).split())


def test_form_of_go():
    assert output("gofmt", "-l", "bench", "bindings/go", "tests") == ""


def test_types_of_pythons_modules(tmp_path):
    """What is published has types; a module that is compiled has a stub."""
    modules = ["lrc_coder.py", "lrcstore"]
    run("mypy", "--strict", "--cache-dir", tmp_path, *modules, cwd=f"{TOP}/bindings/python")


def test_planted_faults():
    run("tests/mutants.py", "--applies")
