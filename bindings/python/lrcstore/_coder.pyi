from typing import Tuple, overload

from _typeshed import ReadableBuffer, WriteableBuffer

@overload
def encode(data: Tuple[ReadableBuffer, ...], targets: None, /) -> list[bytes] | int: ...
@overload
def encode(
    data: Tuple[ReadableBuffer, ...], targets: Tuple[WriteableBuffer, ...], /
) -> int: ...
def encode_add(
    data_fragments: int,
    fragment: int,
    source: ReadableBuffer,
    targets: Tuple[WriteableBuffer, ...],
    /,
) -> int: ...
@overload
def rebuild(
    data_fragments: int,
    left: dict[int, ReadableBuffer],
    fragment: int,
    start: int,
    length: int | None,
    targets: None,
    /,
) -> bytes | int: ...
@overload
def rebuild(
    data_fragments: int,
    left: dict[int, ReadableBuffer],
    fragment: int,
    start: int,
    length: int | None,
    targets: Tuple[WriteableBuffer],
    /,
) -> int: ...
def decode(
    data_fragments: int,
    left: dict[int, ReadableBuffer],
    numbers: Tuple[int, ...],
    start: int,
    length: int | None,
    /,
) -> dict[int, bytes] | int: ...
def plan(
    data_fragments: int, lost: int, numbers: Tuple[int, ...], /
) -> Tuple[bytes, int] | int: ...
@overload
def plan_decode(
    words: Tuple[bytes, Tuple[int, ...], Tuple[int, ...]],
    left: dict[int, ReadableBuffer],
    start: int,
    length: int | None,
    targets: None,
    /,
) -> dict[int, bytes] | int: ...
@overload
def plan_decode(
    words: Tuple[bytes, Tuple[int, ...], Tuple[int, ...]],
    left: dict[int, ReadableBuffer],
    start: int,
    length: int | None,
    targets: Tuple[WriteableBuffer, ...],
    /,
) -> int: ...
def recipe(
    data_fragments: int, lost: int, fragment: int, /
) -> list[Tuple[int, int]] | int: ...
def add(targets: Tuple[WriteableBuffer], coefficient: int, source: ReadableBuffer, /) -> int: ...
def is_open(data_fragments: int, lost: int, fragment: int, /) -> int: ...
def text(status: int, /) -> str: ...
