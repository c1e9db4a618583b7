"""PyECLib over libphazr.so.1: every set of at most four lost fragments, and other codes' fragments.

    LD_LIBRARY_PATH=FOLDER pytest integrations/liberasurecode/test_pyeclib.py

FOLDER has what build.sh has left there."""

import itertools
import os
import struct
import subprocess
import sys
import zlib
from pathlib import Path

import pytest
from pyeclib.ec_iface import ECDriver, ECDriverError
from pyeclib.ec_iface import ECInsufficientFragments, ECInvalidFragmentMetadata

# The places and values of what a fragment's header has.
VERSION_AT, LIBRARY_AT, CHECKSUM_AT, METADATA_LEN = 55, 63, 67, 59
VERSION, VERSION_OF_SIX = 0x4C520C01, 0x4C520601  # of the backend
CORPUS = Path(__file__).parents[2] / "tests/corpus"

driver = ECDriver(k=12, m=4, ec_type="libphazr", chksum_type="inline_crc32")
data = bytes(i * 31 >> 2 & 255 for i in range(120000))
fragments = driver.encode(data)


def others(fragments, *lost):
    return [fragment for i, fragment in enumerate(fragments) if i not in lost]


def with_version(fragment, version):
    """The fragment with another backend version in its header, whose checksum is right."""
    fragment = bytearray(fragment)
    struct.pack_into("<I", fragment, VERSION_AT, version)
    struct.pack_into("<I", fragment, CHECKSUM_AT, zlib.crc32(fragment[:METADATA_LEN]))
    return bytes(fragment)


def without_library(fragment):
    """The fragment less the version of liberasurecode that wrote it, which its header has."""
    return fragment[:LIBRARY_AT] + fragment[CHECKSUM_AT:]


def test_sets():
    decoded = refused = 0
    for count in range(5):
        for lost in itertools.combinations(range(16), count):
            try:
                assert driver.decode(others(fragments, *lost)) == data, lost
                decoded += 1
            except ECInsufficientFragments:
                assert count == 4, lost
                refused += 1
    assert (decoded, refused) == (2265, 252)
    # Swift takes 13 stored fragments to be enough by this number.
    assert driver.min_parity_fragments_needed() == 1


def test_reads():
    for lost in range(16):
        needed = driver.fragments_needed([lost], [])
        assert len(needed) == (6 if lost < 14 else 12), (lost, needed)
        assert driver.reconstruct(others(fragments, lost), [lost]) == [fragments[lost]], lost
        # liberasurecode's own rule: no more may be missing than there are parities
        if lost < 14:
            with pytest.raises(ECInsufficientFragments):
                driver.reconstruct([fragments[i] for i in needed], [lost])
    assert driver.fragments_needed([3], []) == [0, 1, 2, 4, 5, 12]
    without_four = driver.fragments_needed([3], [4])
    assert len(without_four) == 12 and 4 not in without_four
    with pytest.raises(ECInsufficientFragments):
        driver.fragments_needed([3], [4, 5, 14, 15])
    assert driver.reconstruct(others(fragments, 3, 9), [3, 9]) == [fragments[3], fragments[9]]


def test_other_codes():
    reed_solomon = ECDriver(k=12, m=4, ec_type="liberasurecode_rs_vand")
    # README.md: the reverse is not guarded.
    assert reed_solomon.decode(others(fragments, 3)) != data
    other = reed_solomon.encode(data)
    newer = [with_version(fragment, VERSION + 1) for fragment in fragments]
    same = [with_version(fragment, VERSION) for fragment in fragments]
    assert driver.decode(others(same, 3)) == data
    assert struct.unpack_from("<I", fragments[15], VERSION_AT) == (VERSION,)
    for foreign in (other, newer, fragments[:15] + other[15:], fragments[:15] + newer[15:]):
        with pytest.raises(ECInvalidFragmentMetadata):
            driver.decode(others(foreign, 3))
        with pytest.raises(ECInvalidFragmentMetadata):
            driver.reconstruct(others(foreign, 3), [3])
    six = ECDriver(k=6, m=4, ec_type="libphazr")
    assert struct.unpack_from("<I", six.encode(data)[9], VERSION_AT) == (VERSION_OF_SIX,)
    with pytest.raises(ECInvalidFragmentMetadata):
        six.decode(fragments[:10])


@pytest.mark.parametrize("k", (12, 6))
def test_numbers_of_fragments(k):
    one, other = (ECDriver(k=k, m=4, ec_type="libphazr") for _ in range(2))
    assert one.decode(other.encode(b"x")) == b"x"


@pytest.mark.parametrize("k, m", ((12, 3), (10, 4), (12, 5), (4, 4)))
def test_other_numbers_of_fragments(k, m):
    with pytest.raises(ECDriverError):
        ECDriver(k=k, m=m, ec_type="libphazr")


@pytest.mark.parametrize("k", (12, 6))
def test_corpus(k):
    """Fragments that an earlier version stored: they are written and read alike."""
    stored_object = (CORPUS / "object").read_bytes()
    stored = (CORPUS / f"liberasurecode_{k}_4").read_bytes()
    size = len(stored) // (k + 4)
    stored = [stored[i * size : (i + 1) * size] for i in range(k + 4)]
    mine = ECDriver(k=k, m=4, ec_type="libphazr")
    for old, new in zip(stored, mine.encode(stored_object)):
        assert without_library(old) == without_library(new)
    for lost in itertools.combinations(range(k + 4), 3):
        assert mine.decode(others(stored, *lost)) == stored_object, lost
        (new,) = mine.reconstruct(others(stored, *lost), [lost[0]])
        assert without_library(new) == without_library(stored[lost[0]]), lost


OTHER_RELEASE = "unsigned liberasurecode_get_version(void) { return 0x010700; }"
NEW_DRIVER = "from pyeclib.ec_iface import *; ECDriver(k=12, m=4, ec_type='libphazr')"


def test_other_release(tmp_path):
    """The library refuses another release of liberasurecode than it was tested with."""
    words = ["gcc", "-shared", "-fPIC", "-x", "c", "-", "-o", f"{tmp_path}/other.so"]
    subprocess.run(words, input=OTHER_RELEASE, text=True, check=True)
    environment = dict(os.environ, LD_PRELOAD=f"{tmp_path}/other.so")
    words = [sys.executable, "-c", NEW_DRIVER]
    done = subprocess.run(words, env=environment, stderr=subprocess.PIPE, text=True)
    assert done.returncode != 0, done.stderr
    assert "tested with liberasurecode 1.6, and this is 1.7" in done.stderr
