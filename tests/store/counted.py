"""What tests/store/counted.c counts, for tests in Python: the numbers in the file LRC_COUNTED."""

import os
import struct

PATH = os.environ.get("LRC_COUNTED", "")


def numbers(path=PATH):
    """How many blocks of memory the library has, and how many it has had."""
    with open(path, "rb") as file:
        return struct.unpack("qq", file.read(16))


def blocks():
    return numbers()[0]
