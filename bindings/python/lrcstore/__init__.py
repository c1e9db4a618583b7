"""An in-memory blob store that the threads of a process share, and the coder that it uses.

`Store` keeps each blob in a Local Reconstruction Code, so it can read and repair blobs while
fragments are lost. `lrcstore.coder` encodes and rebuilds fragments of your own. Each is an
extension module. The first use of a name of the store loads liblrc_store.so, and importing the
coder loads liblrc_coder.so alone.
"""

import importlib
import sys
from typing import TYPE_CHECKING, List

if sys.version_info < (3, 11):
    raise ImportError("lrcstore needs Python 3.11 or later, whose stable ABI its modules have")

if TYPE_CHECKING:  # pragma: no cover
    from ._store import (
        Busy,
        Closed,
        Grant,
        LostFragment,
        NotFound,
        Numbers,
        OutOfMemory,
        Shape,
        Status,
        Store,
        StoreError,
        Version,
        VersionShape,
        name_of,
    )

__all__ = [
    "Busy",
    "Closed",
    "Grant",
    "LostFragment",
    "NotFound",
    "Numbers",
    "OutOfMemory",
    "Shape",
    "Status",
    "Store",
    "StoreError",
    "Version",
    "VersionShape",
    "name_of",
]


def __getattr__(name: str) -> object:
    """A name of the store, when it is first used."""
    if name not in __all__:
        raise AttributeError(f"module {__name__!r} has no attribute {name!r}")
    found: object = getattr(importlib.import_module(f"{__name__}._store"), name)
    globals()[name] = found
    return found


def __dir__() -> List[str]:
    return sorted({*globals(), *__all__})
