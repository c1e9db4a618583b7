"""What the tests share: the libraries, the extension modules for Python, and the library that
counts its blocks of memory. LRC_LIBRARIES names the folder that tools/libraries.py has filled. A
test without its tools is skipped."""

import functools
import os
import shutil
import sys
import tempfile

import pytest
from building import TOP, build_shared, output, require, run

sys.path.append(os.path.join(TOP, "tools"))

import python_extension  # noqa: E402

if os.environ.get("LRC_LIBRARIES"):
    os.environ["LRC_LIBRARIES"] = os.path.abspath(os.environ["LRC_LIBRARIES"])
LIBRARIES = os.environ.get("LRC_LIBRARIES")
HAS_HEADER = os.path.exists(python_extension.header())
# What loads the libraries is not collected without them, nor Python's package if it isn't compiled.
collect_ignore = [] if LIBRARIES else ["library", "release", "services", "store"]
collect_ignore += [] if HAS_HEADER else ["library", "services", "store"]


@functools.lru_cache(maxsize=None)
def compile_modules():
    """Puts a copy of Python's modules before them, with the extension modules."""
    copy = os.path.join(tempfile.mkdtemp(), "python")
    shutil.copytree(os.path.join(TOP, "bindings", "python"), copy)
    for name in python_extension.MODULES:
        python_extension.build(name, LIBRARIES, os.path.join(copy, "lrcstore"), LIBRARIES)
    sys.path.insert(0, copy)
    os.environ["PYTHONPATH"] = copy
    return os.path.dirname(copy)


def pytest_pycollect_makemodule(module_path):
    """A module of a folder with tests of the libraries loads them as it is imported."""
    if module_path.parent.name in ("library", "services", "store"):
        compile_modules()
        os.environ.setdefault("LRC_CODER_SO", os.path.join(LIBRARIES, "liblrc_coder.so"))


def pytest_unconfigure():
    if compile_modules.cache_info().currsize:
        shutil.rmtree(compile_modules())


def pytest_addoption(parser):
    parser.addoption("--seconds", help="how long each random run of the libraries lasts")
    parser.addoption("--cases", default=1000, help="how many cases of damage `lrc` gets")


@pytest.fixture(scope="session")
def libraries():
    """The folder of the libraries."""
    if not LIBRARIES:
        pytest.skip("LRC_LIBRARIES names no folder of tools/libraries.py")
    assert os.path.exists(f"{LIBRARIES}/liblrc_store.a"), f"{LIBRARIES} has no libraries"
    return LIBRARIES


@pytest.fixture(scope="session")
def cargo_target(tmp_path_factory):
    """A folder for what cargo builds."""
    return tmp_path_factory.mktemp("cargo")


@pytest.fixture(scope="session")
def counted(libraries, tmp_path_factory):
    """The folder of a library of the store that counts its blocks of memory."""
    folder = tmp_path_factory.mktemp("counted")
    run("tests/store/counted.sh", folder)
    return folder


@pytest.fixture(scope="session")
def busy(libraries, tmp_path_factory):
    """A store that is busy for ever, to be loaded before the library."""
    return build_shared(tmp_path_factory.mktemp("busy") / "busy.so", "tests/store/busy.c")


@pytest.fixture(scope="session")
def python_header():
    """The header of Python, by which its extension modules are compiled."""
    path = output("tools/python_extension.py", "--header").strip()
    require(path, "python3-dev")
    return path


@pytest.fixture(scope="session")
def package_with(python_header, tmp_path_factory):
    """A function that copies Python's modules, with extension modules over the libraries of a
    folder, and returns the copy's path."""

    def made(folder, *modules):
        copy = tmp_path_factory.mktemp("package") / "python"
        shutil.copytree(os.path.join(TOP, "bindings", "python"), copy)
        words = ["--libraries", os.environ["LRC_LIBRARIES"], "--to", copy / "lrcstore"]
        run("tools/python_extension.py", *words, "--rpath", folder, *modules)
        return copy

    return made


@pytest.fixture
def python(libraries):
    """A function that runs Python over the libraries, with modules of a folder."""

    def python_with(modules, *words, **environment):
        names = {"LRC_CODER_SO": f"{libraries}/liblrc_coder.so", "PYTHONPATH": modules}
        names.update(PYTHONDONTWRITEBYTECODE="1")
        return output("python3", *words, **{**names, **environment})

    return python_with
