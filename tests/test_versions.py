"""Compares each place that has the version with its home, the number that `lrcstore --version`
prints."""

import re

import libraries
import pytest

NUMBER = libraries.version()
ABI = libraries.abi(NUMBER)
# Each file with a pattern, and what each place that matches it has to be.
PLACES = [
    ("README.md", r"^> \*\*Status: ([\d.]+\d),", NUMBER),
    ("CHANGELOG.md", r"\A(?:(?!^## ).)*^## ([\d.]+\d)", NUMBER),
    ("bindings/rust/Cargo.toml", r'^version = "([^"]*)"', NUMBER),
    ("bindings/rust_store/Cargo.toml", r'^version = "([^"]*)"', NUMBER),
    ("bindings/rust_store/Cargo.lock", r'^version = "([^"]*)"', NUMBER),
    (f"integrations/swift/lrcstore_swift-{NUMBER}.dist-info/METADATA", r"^Version: (\S+)$", NUMBER),
    ("tests/test_statuses.py", r"lrcstore ([\d.]+\d)", NUMBER),
    ("docs/install.md", r"\.so\.(\d[\d.]*)", ABI),
    ("docs/install.md", r"find_package\(\w+ ([\d.]+)", ABI),
    ("docs/limits.md", r"\.so\.(\d[\d.]*)", ABI),
    ("packaging/README.md", r"\.so\.(\d[\d.]*\d)", ABI),
    ("packaging/README.md", r"LRC_\w+?_(\d[\d.]*\d)", ABI),
    ("packaging/README.md", r"liblrc-[a-z]+(\d[\d.]*\d)_", ABI),
    ("packaging/README.md", r"lrc_store-(\d[\d.]*\d)", NUMBER),
    ("packaging/README.md", r"lrcstore v([\d.]+)", NUMBER),
    ("tests/release/fresh.sh", r"lrcstore v([\d.]+)", NUMBER),
    ("tests/release/fresh.sh", r"\.so\.(\d[\d.]*\d)", ABI),
    ("tests/release/modules.py", r"\.so\.(\d[\d.]*\d) liblrc", ABI),
]


@pytest.mark.parametrize("path, pattern, number", PLACES)
def test_version(path, pattern, number):
    assert set(re.findall(pattern, libraries.read(path), re.M | re.S)) == {number}
