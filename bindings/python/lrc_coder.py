"""The coder of the package `lrcstore` by an older name: use `lrcstore.coder`."""

from lrcstore.coder import *  # noqa: F401,F403
from lrcstore.coder import Unrecoverable, __all__, is_unrecoverable

Open, is_open = Unrecoverable, is_unrecoverable
__all__ = [*__all__, "Open", "is_open"]
