"""Tests of examples/: each is built over the libraries as its users build it, and driven."""

import re
import subprocess

import pytest
from building import SANITIZERS, TOP, library, output, run

pytestmark = pytest.mark.usefixtures("libraries")

FLAGS = "-std=gnu11 -O1 -Wall -Wextra -Wshadow -Werror -I include".split()
PYTHON = "bindings/python"


def drive_server(folder, linked, **environment):
    """Builds the server of Redis's protocol, and drives it."""
    path = folder / "resp"
    run("gcc", *FLAGS, "examples/server_resp/server.c", *linked, "-lpthread", "-o", path)
    run("python3", "tests/services/resp_server.py", path, **environment)


def test_redis_protocol(tmp_path, counted):
    """Over the library that counts its blocks of memory."""
    linked = ["-L", counted, "-l:liblrc_store.so", f"-Wl,-rpath,{counted}"]
    numbers = {"LRC_COUNTED": tmp_path / "numbers", "PYTHONPATH": "tests/store"}
    drive_server(tmp_path, linked, PYTHONDONTWRITEBYTECODE=1, **numbers)


def test_redis_protocol_sanitized(tmp_path):
    drive_server(tmp_path, [*SANITIZERS, library("liblrc_store.a")])


def test_http(python, package_with, counted, tmp_path):
    """Over the library that counts its blocks of memory."""
    modules = f"{package_with(counted, '_native')}:tests/store"
    python(modules, "tests/services/http_server.py", LRC_COUNTED=tmp_path / "numbers")


def test_objects_over_nodes(python, package_with, libraries):
    python(package_with(libraries, "_coder"), "tests/services/nodes.py")


def test_cache(cargo_target):
    """Its tests, and its program, which prints what its page shows between fences."""
    words = ["--quiet", "--offline", "--manifest-path", "examples/cache/Cargo.toml"]
    output("cargo", "test", *words, CARGO_TARGET_DIR=cargo_target)
    with open(f"{TOP}/examples/cache/README.md", encoding="utf-8") as page:
        shown = "".join(re.findall(r"^```[^\n]*\n(.*?)^```", page.read(), re.M | re.S))
    assert output("cargo", "run", *words, CARGO_TARGET_DIR=cargo_target) == shown


def test_file_system(package_with, libraries):
    """By the Python of the system, which has fusepy."""
    names = {"PYTHONPATH": package_with(libraries, "_native"), "PYTHONDONTWRITEBYTECODE": 1}
    words = ["/usr/bin/python3", "tests/services/mount.py"]
    try:
        run(*words, "--can", **names)
    except subprocess.CalledProcessError:
        pytest.skip("no FUSE or python3-fusepy")
    run(*words, **names)


@pytest.mark.parametrize("name", ["server_http/server", "nodes/nodes", "mount/mount"])
def test_types(tmp_path, name):
    run("mypy", "--strict", "--cache-dir", tmp_path, f"examples/{name}.py", MYPYPATH=PYTHON)
