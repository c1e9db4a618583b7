"""Tests of what lies outside of the proofs: random calls of the libraries compared with a model,
waits with deadlines, forks, signals and cancelled threads.

Each random run makes a fixed number of rounds from a fixed seed, or lasts for so many seconds as
--seconds says. SEED=.. names another seed, and SEED=fresh draws one, which the run prints.
"""

import pytest
from building import CHOICE, build, build_numbers, levels, run

pytestmark = pytest.mark.usefixtures("libraries")


@pytest.fixture
def random_run(tmp_path, pytestconfig):
    """A function that builds a program of random calls, and runs it for so many rounds."""

    def of(name, rounds, *words, **environment):
        seconds = pytestconfig.getoption("seconds")
        program = build(tmp_path, name, flags=["-O2"])
        run(program, f"{seconds}s" if seconds else rounds, *words, **environment)

    return of


@pytest.mark.parametrize(
    "name, rounds",
    [
        ("random calls", 600),
        ("random calls of shards", 400),
        ("random calls of threads", 40),
        ("random calls of threads", "40 handed"),
    ],
)
def test_random(random_run, name, rounds):
    random_run(name, *str(rounds).split())


@pytest.mark.parametrize("level", levels())
def test_random_calls_of_the_coder(random_run, level):
    random_run("random calls of the coder", 400, LRC_CODER_CPU=level)


@pytest.mark.parametrize("name", ["waits", "processes"])
def test_held(tmp_path, name):
    """Programs that hold the critical section."""
    run("timeout", "300", build(tmp_path, name))


@pytest.mark.parametrize("highest, flags", [("v3", []), ("v4", ["-DHAS_V4"])])
def test_choice_of_the_processors_code(tmp_path, highest, flags):
    run("tests/edges/choice.sh", build(tmp_path, "choice", flags=[*CHOICE, *flags]), highest)


@pytest.mark.parametrize("flag", ["-UHAS_V4", "-DHAS_V4"])
def test_choice_on_other_processors(tmp_path, flag):
    """The same on processors that the test makes up."""
    run(build(tmp_path, "processors", flags=[flag]))


def test_numbers_of_stores(tmp_path):
    run(build_numbers(tmp_path))


def test_texts_of_statuses(tmp_path):
    run(build(tmp_path, "edges of texts"))
