"""The licence: its file at the top of the repository, without which no release is made."""

import os
import sys

import libraries

FILE = "LICENSE"
NONE = "No licence has been chosen, so nobody but the owner may pass these files on.\n"


def text():
    """The licence, or None if the owner has chosen none."""
    there = os.path.join(libraries.TOP, FILE)
    return libraries.read(FILE) if os.path.exists(there) else None


def demand(is_unlicensed):
    """Ends if there is no licence and that is not wanted."""
    if text() is None and not is_unlicensed:
        sys.exit(
            f"there is no {FILE} at the top, so nobody may pass a release on: choose a licence,"
            " or give --unlicensed for packages of your own"
        )


def in_debian(year):
    """The paragraph of debian/copyright."""
    lines = (text() or NONE).rstrip().split("\n")
    name = "see-below" if text() else "none-chosen"
    body = "".join(f" {line or '.'}\n" for line in lines)
    return f"Files: *\nCopyright: {year} the owner of lrcstore\nLicense: {name}\n{body}"
