"""The Local Reconstruction Codes LRC(12,2,2) and LRC(6,2,2).

A code is named by its number of data fragments, 12 or 6; `lost` is any iterable of fragment
numbers. A fragment is bytes, or any other buffer whose bytes lie one behind another, such as a
bytearray, a memoryview, an array or a file in memory. It is read where it is, without a copy, and
cannot be resized while a call uses it. A call whose name ends in `_into` writes to buffers that are
given, and others return new bytes.

A call raises Unrecoverable if the fragment is, and ValueError if an argument is invalid. Then it
has written nothing. Long calls let other threads of Python run. `include/lrc_coder.h` describes the
functions of liblrc_coder.so.
"""

from __future__ import annotations

import enum
import io
from typing import (
    TYPE_CHECKING,
    Dict,
    Iterable,
    Iterator,
    List,
    Mapping,
    NoReturn,
    Sequence,
    Tuple,
)

try:
    from . import _coder
except ImportError as error:
    hint = "install a package of lrcstore, or compile the module by tools/python_extension.py"
    raise ImportError(f"{error}: {hint}") from error

if TYPE_CHECKING:
    from _typeshed import ReadableBuffer, WriteableBuffer

__all__ = [
    "Inconsistent",
    "Plan",
    "Status",
    "Unrecoverable",
    "add",
    "decode",
    "encode",
    "encode_add",
    "encode_into",
    "is_unrecoverable",
    "join",
    "rebuild",
    "rebuild_into",
    "recipe",
    "split",
    "verify",
]


class Status(enum.IntEnum):
    """What a function of the library returns."""

    DONE = 0
    UNRECOVERABLE = 1
    OPEN = 1  # the same
    BAD_ARGUMENT = 2


class Unrecoverable(ValueError):
    """The remaining fragments do not determine the fragment."""


class Inconsistent(ValueError):
    """The parities of a stripe are not those of its data."""


def _fail(call: str, status: int) -> NoReturn:
    raise ValueError(f"{call}: {_coder.text(status)}")


def _check(call: str, status: int) -> None:
    """Raises ValueError if the library refused the arguments, for whatever reason."""
    if status not in (Status.DONE, Status.UNRECOVERABLE):
        _fail(call, status)


def _refuse(call: str, fragment: int) -> NoReturn:
    raise Unrecoverable(f"{call}: fragment {fragment}: {_coder.text(Status.UNRECOVERABLE)}")


def _shown(count: int) -> str:
    return f"{count} byte" if count == 1 else f"{count} bytes"


def _number(call: str, what: str, value: int, end: int) -> int:
    """The value, which has to be below `end`."""
    if not 0 <= value < end:
        raise ValueError(f"{call}: {what} {value} is not in 0 to {end - 1}")
    return value


def _fragments_of(call: str, data_fragments: int) -> int:
    """The number of fragments of a code."""
    if data_fragments not in (12, 6):
        raise ValueError(f"{call}: {data_fragments} data fragments, expected 12 or 6")
    return data_fragments + 4


def _set(call: str, lost: Iterable[int]) -> int:
    return sum({1 << _number(call, "fragment", fragment, 16) for fragment in lost})


def _check_lost(call: str, data_fragments: int, lost: int, fragment: int) -> None:
    """Raises ValueError unless the fragment is the code's and lost."""
    _number(call, "fragment", fragment, _fragments_of(call, data_fragments))
    if not lost >> fragment & 1:
        raise ValueError(f"{call}: fragment {fragment} is not lost")


def _length(call: str, name: str, buffer: ReadableBuffer, is_target: bool = False) -> int:
    """The length of a buffer in bytes, which have to lie one behind another."""
    try:
        view = memoryview(buffer)
    except TypeError:
        found = type(buffer).__name__
        raise TypeError(f"{call}: {name} is of {found}, expected bytes or a buffer") from None
    with view:
        if not view.c_contiguous:
            raise ValueError(f"{call}: {name} is not contiguous: copy it by bytes()")
        if is_target and view.readonly:
            raise ValueError(f"{call}: {name} is read-only")
        return view.nbytes


def _common_length(
    call: str,
    buffers: Mapping[str, ReadableBuffer],
    hint: str = "",
    targets: Mapping[str, WriteableBuffer] | None = None,
) -> int:
    """The length of all buffers, which have to have the same."""
    lengths = {name: _length(call, name, buffer) for name, buffer in buffers.items()}
    for name, buffer in (targets or {}).items():
        lengths[name] = _length(call, name, buffer, is_target=True)
    first = next(iter(lengths), "")
    for name, length in lengths.items():
        if length != lengths[first]:
            found = f"{name} has {_shown(length)}, {first} has {lengths[first]}"
            raise ValueError(f"{call}: {found}{hint}")
    return lengths.get(first, 0)


def _check_range(
    call: str,
    data_fragments: int,
    left: Mapping[int, ReadableBuffer],
    start: int,
    length: int | None,
) -> None:
    """Raises ValueError unless the range lies inside all remaining fragments."""
    end = _fragments_of(call, data_fragments)
    buffers = {f"fragment {number}": left[number] for number in sorted(left) if number < end}
    _number(call, "start", start, 1 << 63)
    if length is None:
        common = _common_length(call, buffers, ": pass a length")
        if buffers and start > common:
            raise ValueError(f"{call}: start {start}, and the fragments have {_shown(common)}")
        return
    _number(call, "length", length, 1 << 63)
    for name, buffer in buffers.items():
        has = _length(call, name, buffer)
        if has < start + length:
            raise ValueError(
                f"{call}: {name} has {_shown(has)}, the range ends at {start + length}"
            )


def _check_parities(
    call: str,
    data: Mapping[int, ReadableBuffer],
    first_parity: int,
    parities: Sequence[WriteableBuffer],
) -> None:
    """Raises ValueError unless data and parities have one length."""
    if len(parities) != 4:
        raise ValueError(f"{call}: {len(parities)} parities, expected 4")
    sources = {f"fragment {i}": each for i, each in data.items()}
    targets = {f"fragment {i}": each for i, each in enumerate(parities, first_parity)}
    _common_length(call, sources, "", targets)


def _first_unrecoverable(data_fragments: int, lost: int, fragments: Iterable[int]) -> int:
    of_lost = [i for i in range(16) if lost >> i & 1]
    return next(i for i in fragments if is_unrecoverable(data_fragments, of_lost, i))


def _refuse_left(
    call: str,
    status: int,
    data_fragments: int,
    left: Mapping[int, ReadableBuffer],
    fragments: Sequence[int],
    start: int,
    length: int | None,
) -> NoReturn:
    """Raises the reason why lost fragments could not be made from those that remain."""
    lost = 0xFFFF & ~_set(call, left)
    for fragment in fragments:
        _check_lost(call, data_fragments, lost, fragment)
    _check_range(call, data_fragments, left, start, length)
    _check(call, status)
    _refuse(call, _first_unrecoverable(data_fragments, lost, fragments))


def encode(data: Sequence[ReadableBuffer]) -> List[bytes]:
    """The four parities of 12 or 6 data fragments of one length."""
    made = _coder.encode(tuple(data), None)
    if isinstance(made, int):
        _fragments_of("encode", len(data))
        _common_length("encode", {f"fragment {i}": each for i, each in enumerate(data)})
        _fail("encode", made)
    return made


def encode_into(data: Sequence[ReadableBuffer], parities: Sequence[WriteableBuffer]) -> None:
    """Writes the four parities of 12 or 6 data fragments to buffers of their length."""
    status = _coder.encode(tuple(data), tuple(parities))
    if status:
        first_parity = _fragments_of("encode_into", len(data)) - 4
        _check_parities("encode_into", dict(enumerate(data)), first_parity, parities)
        _fail("encode_into", status)


def encode_add(
    data_fragments: int,
    fragment: int,
    source: ReadableBuffer,
    parities: Sequence[WriteableBuffer],
) -> None:
    """Adds a data fragment to the four parities, which are buffers of its length."""
    status = _coder.encode_add(data_fragments, fragment, source, tuple(parities))
    if status:
        first_parity = _fragments_of("encode_add", data_fragments) - 4
        _number("encode_add", "fragment", fragment, first_parity)
        _check_parities("encode_add", {fragment: source}, first_parity, parities)
        _fail("encode_add", status)


def is_unrecoverable(data_fragments: int, lost: Iterable[int], fragment: int) -> bool:
    """Whether the remaining fragments do not determine the fragment."""
    call = "is_unrecoverable"
    _number(call, "fragment", fragment, _fragments_of(call, data_fragments))
    status = _coder.is_open(data_fragments, _set(call, lost), fragment)
    _check(call, status)
    return status == Status.UNRECOVERABLE


def rebuild(
    data_fragments: int,
    left: Mapping[int, ReadableBuffer],
    fragment: int,
    start: int = 0,
    length: int | None = None,
) -> bytes:
    """`length` bytes of a lost fragment, from `start` on.

    `left` maps the numbers of the remaining fragments to their bytes. Without a length, they have
    to have one length, and the bytes go to their end. Raises Unrecoverable if the fragment is.
    """
    remaining = left if isinstance(left, dict) else dict(left)
    made = _coder.rebuild(data_fragments, remaining, fragment, start, length, None)
    if isinstance(made, int):
        _refuse_left("rebuild", made, data_fragments, left, [fragment], start, length)
    return made


def rebuild_into(
    data_fragments: int,
    left: Mapping[int, ReadableBuffer],
    fragment: int,
    target: WriteableBuffer,
    start: int = 0,
) -> None:
    """Writes as many bytes of a lost fragment as the target has, from `start` on, to it."""
    remaining = left if isinstance(left, dict) else dict(left)
    status = _coder.rebuild(data_fragments, remaining, fragment, start, None, (target,))
    if status:
        length = _length("rebuild_into", "the target", target, is_target=True)
        _refuse_left("rebuild_into", status, data_fragments, left, [fragment], start, length)


def decode(
    data_fragments: int,
    left: Mapping[int, ReadableBuffer],
    fragments: Iterable[int],
    start: int = 0,
    length: int | None = None,
) -> Dict[int, bytes]:
    """The bytes of several lost fragments, by their numbers, as `rebuild` returns them.

    It takes less time than a rebuild of each. Raises Unrecoverable if one of them is.
    """
    chosen = tuple(dict.fromkeys(fragments))
    remaining = left if isinstance(left, dict) else dict(left)
    made = _coder.decode(data_fragments, remaining, chosen, start, length)
    if isinstance(made, int):
        _refuse_left("decode", made, data_fragments, left, chosen, start, length)
    return made


class Plan:
    """How lost fragments are decoded. It depends on the lost set alone, so one plan serves any
    number of stripes. It can be copied and pickled.

    `reads` has the numbers of the fragments that `decode` reads.
    """

    def __init__(self, data_fragments: int, lost: Iterable[int], fragments: Iterable[int]) -> None:
        """For these lost fragments, at most four. Raises Unrecoverable if one of them is."""
        lost_set = _set("Plan", lost)
        self.fragments = list(dict.fromkeys(fragments))
        for fragment in self.fragments:
            _check_lost("Plan", data_fragments, lost_set, fragment)
        self._data_fragments = _fragments_of("Plan", data_fragments) - 4
        made = _coder.plan(data_fragments, lost_set, tuple(self.fragments))
        if isinstance(made, int):
            _check("Plan", made)
            _refuse("Plan", _first_unrecoverable(data_fragments, lost_set, self.fragments))
        self.reads = [i for i in range(16) if made[1] >> i & 1]
        self._words = made[0], tuple(self.reads), tuple(self.fragments)

    def decode(
        self, left: Mapping[int, ReadableBuffer], start: int = 0, length: int | None = None
    ) -> Dict[int, bytes]:
        """The bytes of the fragments, by their numbers, as the function `decode` returns them.
        `left` has to have those that the plan reads. Others are ignored."""
        remaining = left if isinstance(left, dict) else dict(left)
        made = _coder.plan_decode(self._words, remaining, start, length, None)
        if isinstance(made, int):
            self._check_left("decode", left, start, length)
            _fail("decode", made)
        return made

    def decode_into(
        self,
        left: Mapping[int, ReadableBuffer],
        targets: Sequence[WriteableBuffer],
        start: int = 0,
    ) -> None:
        """Writes the same to a target for each of `fragments`, in their order. The targets have one
        length, and get so many bytes from `start` on."""
        remaining = left if isinstance(left, dict) else dict(left)
        status = _coder.plan_decode(self._words, remaining, start, None, tuple(targets))
        if status:
            length = self._check_targets("decode_into", targets)
            self._check_left("decode_into", left, start, length)
            _fail("decode_into", status)

    def _check_targets(self, call: str, targets: Sequence[WriteableBuffer]) -> int:
        """The length of the targets, of which there has to be one for each fragment."""
        if len(targets) != len(self.fragments):
            raise ValueError(f"{call}: {len(targets)} targets, expected {len(self.fragments)}")
        named = {f"the target of {i}": each for i, each in zip(self.fragments, targets)}
        return _common_length(call, {}, "", named)

    def _check_left(
        self, call: str, left: Mapping[int, ReadableBuffer], start: int, length: int | None
    ) -> None:
        """Raises ValueError unless what the plan reads is there, and the range lies inside."""
        for i in self.reads:
            if i not in left:
                raise ValueError(f"{call}: fragment {i} is missing, and the plan reads it")
        read = {i: left[i] for i in self.reads}
        _check_range(call, self._data_fragments, read, start, length)


def recipe(data_fragments: int, lost: Iterable[int], fragment: int) -> List[Tuple[int, int]]:
    """A recipe for a lost fragment: pairs of a remaining fragment and its coefficient."""
    lost_set = _set("recipe", lost)
    _check_lost("recipe", data_fragments, lost_set, fragment)
    made = _coder.recipe(data_fragments, lost_set, fragment)
    if isinstance(made, int):
        _check("recipe", made)
        _refuse("recipe", fragment)
    return made


def add(target: WriteableBuffer, coefficient: int, source: ReadableBuffer) -> None:
    """Adds a source times a coefficient to a target, byte by byte, in the field."""
    status = _coder.add((target,), coefficient, source)
    if status:
        _number("add", "coefficient", coefficient, 256)
        _common_length("add", {"the source": source}, "", {"the target": target})
        _fail("add", status)


def split(
    data: ReadableBuffer, width: int, data_fragments: int = 12
) -> Iterator[List[ReadableBuffer]]:
    """The stripes of some data: each is a list of all its fragments, of `width` bytes, with the
    parities at its end. Data fragments are views of the data, without a copy. The last stripe is
    filled up with zeros, so keep the length of the data for `join`."""
    _fragments_of("split", data_fragments)
    if width < 1:
        raise ValueError(f"split: width {width}, expected at least 1")
    _length("split", "the data", data)
    return _stripes(memoryview(data).cast("B"), width, data_fragments)


def _stripes(
    whole: memoryview, width: int, data_fragments: int
) -> Iterator[List[ReadableBuffer]]:
    size = width * data_fragments
    for start in range(0, len(whole), size):
        stripe = whole[start : start + size]
        if len(stripe) < size:
            stripe = memoryview(bytes(stripe).ljust(size, b"\0"))
        data = [stripe[i : i + width] for i in range(0, size, width)]
        yield [*data, *encode(data)]


def verify(fragments: Sequence[ReadableBuffer]) -> bool:
    """Whether the parities of a stripe, whose 16 or 10 fragments are all given, are those of its
    data. If they are not, at least one fragment is wrong, and this does not determine which."""
    if len(fragments) not in (16, 10):
        raise ValueError(f"verify: {len(fragments)} fragments, expected 16 or 10")
    _common_length("verify", {f"fragment {i}": each for i, each in enumerate(fragments)})
    parities = encode(fragments[:-4])
    return all(made == bytes(memoryview(it)) for made, it in zip(parities, fragments[-4:]))


def join(stripes: Iterable[Sequence[ReadableBuffer]], length: int) -> bytes:
    """The data of whole stripes, as `split` makes them, whose length this is. Raises Inconsistent
    if a stripe does not verify."""
    left = _number("join", "length", length, 1 << 63)
    joined = io.BytesIO()
    for number, stripe in enumerate(stripes):
        if not left:
            raise ValueError(f"join: stripe {number} begins at the length {length}")
        if not verify(stripe):
            raise Inconsistent(f"join: stripe {number}: the parities are not those of the data")
        for fragment in stripe[:-4]:
            left -= joined.write(memoryview(fragment).cast("B")[:left])
    if left:
        raise ValueError(f"join: the stripes have {_shown(length - left)}, the length is {length}")
    return joined.getvalue()
