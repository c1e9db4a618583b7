"""The coder of the Python package: lost sets of both codes, recipes, bad arguments, and what other
programs computed (crates/test_vectors/data/ORIGIN.md)."""

import array
import collections
import contextlib
import copy
import ctypes
import gc
import itertools
import mmap
import os
import pickle
import sys
import threading
import types
import unittest

import lrc_coder
from lrcstore import _coder, coder
from lrcstore.coder import Unrecoverable

TOP = os.path.dirname(os.path.dirname(os.path.dirname(os.path.abspath(__file__))))
DATA = os.path.join(TOP, "crates", "test_vectors", "data")


def stripe(data_fragments, width):
    data = [bytes((53 * i + 7 * k + 1) % 256 for k in range(width)) for i in range(data_fragments)]
    return data + coder.encode(data)


def is_whole(fragments, data_fragments, lost):
    """Whether each lost fragment comes back, by rebuild and by its recipe."""
    left = {i: data for i, data in enumerate(fragments) if i not in lost}
    whole = True
    for fragment in lost:
        is_lost = coder.is_unrecoverable(data_fragments, lost, fragment)
        try:
            assert (
                coder.rebuild(data_fragments, left, fragment) == fragments[fragment]
                and not is_lost
            )
            total = bytearray(len(fragments[fragment]))
            for source, coefficient in coder.recipe(data_fragments, lost, fragment):
                coder.add(total, coefficient, left[source])
            assert total == fragments[fragment]
        except Unrecoverable as error:
            assert str(error) == f"rebuild: fragment {fragment}: the fragment is unrecoverable"
            assert is_lost
            whole = False
    return whole


def decodes_whole(fragments, data_fragments, lost):
    """Whether all lost fragments come back at once; each alone does unless it is unrecoverable."""
    left = {i: data for i, data in enumerate(fragments) if i not in lost}
    unrecoverable = [i for i in lost if coder.is_unrecoverable(data_fragments, lost, i)]
    for fragment in set(lost) - set(unrecoverable):
        one = coder.decode(data_fragments, left, [fragment])
        assert one == {fragment: fragments[fragment]}
        plan = coder.Plan(data_fragments, lost, [fragment])
        assert plan.decode({i: left[i] for i in plan.reads}) == one
    try:
        assert coder.decode(data_fragments, left, lost) == {
            fragment: fragments[fragment] for fragment in lost
        }
    except Unrecoverable as error:
        first = unrecoverable[0]
        assert str(error) == f"decode: fragment {first}: the fragment is unrecoverable"
        return False
    assert not unrecoverable
    return True


def count_whole(data_fragments, size):
    fragments = stripe(data_fragments, 20)
    sets = list(itertools.combinations(range(data_fragments + 4), size))
    whole = [is_whole(fragments, data_fragments, lost) for lost in sets]
    assert whole == [decodes_whole(fragments, data_fragments, lost) for lost in sets]
    return sum(whole), len(sets)


class Refusals(unittest.TestCase):
    def refuses(self, text, call, *arguments):
        with self.assertRaises(ValueError) as caught:
            call(*arguments)
        self.assertIs(type(caught.exception), ValueError)
        self.assertEqual(str(caught.exception), text)


class Calls(Refusals):
    def setUp(self):
        self.fragments = stripe(12, 4)
        self.left = dict(enumerate(self.fragments[1:], 1))
        self.small = dict(enumerate(stripe(6, 4)))

    def test_encode_add(self):
        fragments = stripe(12, 33)
        parities = [bytearray(33) for _ in range(4)]
        for i in reversed(range(12)):
            coder.encode_add(12, i, fragments[i], parities)
        self.assertEqual(parities, fragments[12:])

    def test_encode_names_the_fragment(self):
        data = [b"ab"] * 12
        encode = coder.encode
        wrong = "encode: fragment 11 has 3 bytes, fragment 0 has 2"
        self.refuses(wrong, encode, data[:11] + [b"abc"])
        self.refuses(
            "encode: fragment 1 has 1 byte, fragment 0 has 2", encode, [*data[:1], b"a", *data[:4]]
        )
        self.refuses("encode: 11 data fragments, expected 12 or 6", encode, data[:11])
        self.refuses("encode: 0 data fragments, expected 12 or 6", encode, [])
        self.assertEqual(encode([b""] * 6), [b""] * 4)

    def test_encode_add_names_the_fragment(self):
        target, parities = bytearray(b"\xee" * 4), [bytearray(4) for _ in range(3)]
        add = coder.encode_add
        wrong = "encode_add: fragment 12 is not in 0 to 11"
        self.refuses(wrong, add, 12, 12, self.fragments[0], [target, *parities])
        wrong = "encode_add: fragment -1 is not in 0 to 5"
        self.refuses(wrong, add, 6, -1, self.fragments[0], [target, *parities])
        wrong = "encode_add: 8 data fragments, expected 12 or 6"
        self.refuses(wrong, add, 8, 0, self.fragments[0], [target, *parities])
        wrong = "encode_add: fragment 9 has 5 bytes, fragment 2 has 4"
        self.refuses(wrong, add, 6, 2, self.fragments[0], [target, *parities[:2], bytearray(5)])
        wrong = "encode_add: fragment 12 has 4 bytes, fragment 2 has 3"
        self.refuses(wrong, add, 12, 2, b"abc", [target, *parities])
        self.assertEqual(target, b"\xee" * 4)

    def test_is_unrecoverable_names_the_fragment(self):
        call = coder.is_unrecoverable
        self.refuses("is_unrecoverable: fragment 16 is not in 0 to 15", call, 12, [0], 16)
        self.refuses("is_unrecoverable: fragment 10 is not in 0 to 9", call, 6, [0], 10)
        self.refuses("is_unrecoverable: fragment 16 is not in 0 to 15", call, 12, [16], 0)
        self.refuses("is_unrecoverable: 13 data fragments, expected 12 or 6", call, 13, [0], 0)
        self.assertFalse(call(12, [0, 1, 2], 3))
        self.assertTrue(call(12, iter([0, 1, 2, 3, 4]), 3))

    def test_rebuild_refuses_unequal_lengths(self):
        left, rebuild = self.left, coder.rebuild
        wrong = "rebuild: fragment 11 has 3 bytes, fragment 1 has 4: pass a length"
        self.refuses(wrong, rebuild, 12, {**left, 11: left[11][:3]}, 0)
        wrong = "rebuild: fragment 11 has 5 bytes, fragment 1 has 4: pass a length"
        self.refuses(wrong, rebuild, 12, {**left, 11: left[11] + b"x"}, 0)
        wrong = "decode: fragment 11 has 5 bytes, fragment 1 has 4: pass a length"
        self.refuses(wrong, coder.decode, 12, {**left, 11: bytes(5)}, [0])
        whole = {**left, 11: left[11][:3]}
        self.assertEqual(rebuild(12, whole, 0, 0, 3), self.fragments[0][:3])
        self.assertEqual(rebuild(12, whole, 0, length=2, start=1), self.fragments[0][1:3])
        wrong = "rebuild: fragment 11 has 3 bytes, the range ends at 4"
        self.refuses(wrong, rebuild, 12, whole, 0, 0, 4)
        self.refuses(wrong, rebuild, 12, whole, 0, 1, 3)
        small = {**self.small, 10: b"of no matter"}
        del small[2]
        self.assertEqual(rebuild(6, small, 2), self.small[2])
        self.assertEqual(rebuild(6, small, 2, 3), self.small[2][3:])

    def test_rebuild_names_the_fragment(self):
        left, rebuild = self.left, coder.rebuild
        self.refuses("rebuild: fragment 1 is not lost", rebuild, 12, left, 1)
        self.refuses("rebuild: fragment 10 is not in 0 to 9", rebuild, 6, self.small, 10)
        self.refuses("rebuild: fragment 16 is not in 0 to 15", rebuild, 12, {16: b"x"}, 0)
        self.refuses("rebuild: 13 data fragments, expected 12 or 6", rebuild, 13, left, 0)
        limit = 2**63 - 1
        self.refuses(f"rebuild: start -1 is not in 0 to {limit}", rebuild, 12, left, 0, -1, 4)
        self.refuses(f"rebuild: length -1 is not in 0 to {limit}", rebuild, 12, left, 0, 0, -1)
        self.refuses("rebuild: start 5, and the fragments have 4 bytes", rebuild, 12, left, 0, 5)
        self.assertEqual(rebuild(12, left, 0, 4), b"")
        self.assertEqual(rebuild(12, left, 0, 1, 2), self.fragments[0][1:3])
        self.assertEqual(rebuild(12, left, 0, 0, 0), b"")
        self.assertRaises(Unrecoverable, rebuild, 12, {}, 0)
        self.assertRaises(Unrecoverable, rebuild, 12, {}, 0, 7, 5)

    def test_decode_names_the_fragment(self):
        left, decode = {**self.left}, coder.decode
        del left[7]
        self.refuses("decode: fragment 1 is not lost", decode, 12, left, [0, 1])
        self.refuses("decode: fragment 255 is not in 0 to 15", decode, 12, left, [255])
        self.refuses("decode: 13 data fragments, expected 12 or 6", decode, 13, left, [0])
        wrong = "decode: fragment 1 has 4 bytes, the range ends at 5"
        self.refuses(wrong, decode, 12, left, [0], 0, 5)
        wrong = "decode: fragment 9 has 2 bytes, fragment 1 has 4: pass a length"
        self.refuses(wrong, decode, 12, {**left, 9: b"ab"}, [0])
        both = {7: self.fragments[7][1:3], 0: self.fragments[0][1:3]}
        self.assertEqual(list(decode(12, left, [7, 0, 7], 1, 2).items()), list(both.items()))
        self.assertEqual(decode(12, left, 2 * [7, 0, 7], 1, 2), both)
        self.assertEqual(decode(12, left, []), {})

    def test_plans(self):
        left = {**self.left, 3: b"", 16: b"not a fragment"}
        del left[7]
        plan = coder.Plan(12, [0, 3, 7], [7, 0, 7])
        self.assertEqual(plan.fragments, [7, 0])
        self.assertEqual(set(plan.reads) & {0, 3, 7, 16}, set())
        both = {7: self.fragments[7][1:3], 0: self.fragments[0][1:3]}
        for each in (plan, pickle.loads(pickle.dumps(plan)), copy.deepcopy(plan)):
            self.assertEqual(list(each.decode(left, 1, 2).items()), list(both.items()))
        self.assertEqual(plan.decode(left), {i: self.fragments[i] for i in (0, 7)})
        self.assertEqual(plan.decode(left, 4), {0: b"", 7: b""})
        alone = coder.Plan(6, [1], [1])
        self.assertEqual(alone.reads, [0, 2, 6])
        self.assertEqual(alone.decode(self.small), {1: self.small[1]})
        self.assertEqual(coder.Plan(12, [0], []).decode({}), {})

    def test_plans_name_the_fragment(self):
        plan, left = coder.Plan, dict(self.left)
        self.refuses("Plan: fragment 1 is not lost", plan, 12, [0], [0, 1])
        self.refuses("Plan: fragment 16 is not in 0 to 15", plan, 12, [16], [0])
        self.refuses("Plan: fragment 10 is not in 0 to 9", plan, 6, [10], [10])
        self.refuses("Plan: 13 data fragments, expected 12 or 6", plan, 13, [0], [])
        self.refuses("Plan: 13 data fragments, expected 12 or 6", plan, 13, [0], [0])
        for lost in (range(5), range(6)):
            with self.assertRaisesRegex(Unrecoverable, "^Plan: fragment 0: the fragment is"):
                plan(12, lost, lost)
        with self.assertRaisesRegex(Unrecoverable, "^Plan: fragment 2: the fragment is"):
            plan(12, [*range(5), 6], [6, 2])
        decode = plan(12, [0], [0]).decode
        wrong = "decode: fragment 1 has 4 bytes, the range ends at 5"
        self.refuses(wrong, decode, left, 0, 5)
        wrong = "decode: fragment 4 has 2 bytes, fragment 1 has 4: pass a length"
        self.refuses(wrong, decode, {**left, 4: b"ab"})
        wrong = "decode: fragment 7 has 4 bytes, the range ends at 5"
        self.refuses(wrong, plan(12, [6], [6]).decode, {**left, 1: b""}, 0, 5)
        del left[5]
        self.refuses("decode: fragment 5 is missing, and the plan reads it", decode, left)

    def test_recipe_and_add(self):
        target = bytearray(b"\xee" * 4)
        self.refuses("recipe: fragment 0 is not lost", coder.recipe, 12, [1], 0)
        self.refuses("recipe: fragment 10 is not in 0 to 9", coder.recipe, 6, [10], 10)
        with self.assertRaisesRegex(Unrecoverable, "^recipe: fragment 2: the fragment is"):
            coder.recipe(12, range(5), 2)
        add = coder.add
        self.refuses("add: coefficient 256 is not in 0 to 255", add, target, 256, target)
        wrong = "add: the target has 4 bytes, the source has 3"
        self.refuses(wrong, add, target, 1, self.fragments[0][1:])
        self.assertEqual(target, b"\xee" * 4)

    def test_the_older_name(self):
        for name in coder.__all__:
            self.assertIs(getattr(lrc_coder, name), getattr(coder, name))
        self.assertEqual({*lrc_coder.__all__}, {*coder.__all__, "Open", "is_open"})
        self.assertIs(lrc_coder.is_open, coder.is_unrecoverable)
        self.assertIs(lrc_coder.Open, coder.Unrecoverable)


class Targets(Refusals):
    """Calls that write to buffers that are given."""

    def setUp(self):
        self.fragments = stripe(12, 4)
        self.left = dict(enumerate(self.fragments[1:], 1))

    def test_encode_into(self):
        for count in (12, 6):
            whole = stripe(count, 33)
            targets = [bytearray(33), memoryview(bytearray(33)), array.array("B", bytes(33))]
            targets.append(mmap.mmap(-1, 33))
            coder.encode_into(whole[:count], targets)
            self.assertEqual([bytes(it) for it in targets], whole[count:])
        coder.encode_into([b""] * 6, 4 * [bytearray()])

    def test_encode_into_names_the_fragment(self):
        data, encode = self.fragments[:12], coder.encode_into
        targets = [bytearray(b"\xee" * 4) for _ in range(4)]
        wrong = "encode_into: 11 data fragments, expected 12 or 6"
        self.refuses(wrong, encode, data[:11], targets)
        self.refuses("encode_into: 3 parities, expected 4", encode, data, targets[:3])
        self.refuses("encode_into: 5 parities, expected 4", encode, data, [*targets, bytearray(4)])
        wrong = "encode_into: fragment 13 has 5 bytes, fragment 0 has 4"
        self.refuses(wrong, encode, data, [targets[0], bytearray(5), *targets[2:]])
        wrong = "encode_into: fragment 8 is read-only"
        self.refuses(wrong, encode, data[:6], [*targets[:2], bytes(4), targets[3]])
        wrong = "encode_into: fragment 9 is not contiguous: copy it by bytes()"
        self.refuses(wrong, encode, data[:6], [*targets[:3], memoryview(bytearray(8))[::2]])
        self.assertEqual(targets, 4 * [b"\xee" * 4])

    def test_rebuild_into(self):
        left, rebuild = self.left, coder.rebuild_into
        for start, length in ((0, 4), (1, 2), (4, 0), (3, 1)):
            target = bytearray(length)
            rebuild(12, left, 0, target, start)
            self.assertEqual(target, self.fragments[0][start : start + length])
        target = bytearray(b"\xee" * 5)
        wrong = "rebuild_into: fragment 1 has 4 bytes, the range ends at 5"
        self.refuses(wrong, rebuild, 12, left, 0, target)
        self.refuses("rebuild_into: fragment 1 is not lost", rebuild, 12, left, 1, target)
        self.refuses("rebuild_into: the target is read-only", rebuild, 12, left, 0, b"abcd")
        limit = 2**63 - 1
        wrong = f"rebuild_into: start -1 is not in 0 to {limit}"
        self.refuses(wrong, rebuild, 12, left, 0, target, -1)
        with self.assertRaisesRegex(Unrecoverable, "^rebuild_into: fragment 0: the fragment is"):
            rebuild(12, {}, 0, target)
        self.assertEqual(target, b"\xee" * 5)

    def test_decode_into(self):
        plan = coder.Plan(12, [0, 7], [7, 0])
        for each in (plan, pickle.loads(pickle.dumps(plan))):
            targets = [bytearray(2), bytearray(2)]
            each.decode_into(self.left, targets, 1)
            self.assertEqual(targets, [self.fragments[i][1:3] for i in (7, 0)])
        target = bytearray(b"\xee" * 4)
        decode = plan.decode_into
        self.refuses("decode_into: 1 targets, expected 2", decode, self.left, [target])
        wrong = "decode_into: the target of 0 has 3 bytes, the target of 7 has 4"
        self.refuses(wrong, decode, self.left, [target, bytearray(3)])
        self.refuses("decode_into: the target of 0 is read-only", decode, self.left, [target, b"a"])
        wrong = "decode_into: fragment 1 has 4 bytes, the range ends at 5"
        self.refuses(wrong, decode, self.left, [target, bytearray(4)], 1)
        lacks = {i: it for i, it in self.left.items() if i != 5}
        wrong = "decode_into: fragment 5 is missing, and the plan reads it"
        self.refuses(wrong, decode, lacks, [target, bytearray(4)])
        self.assertEqual(target, b"\xee" * 4)
        coder.Plan(12, [0], []).decode_into({}, [])

    def test_targets_that_overlap(self):
        """They are refused: the library would read what it has written."""
        room, data = bytearray(b"\xee" * 40), self.fragments[:12]
        view, text = memoryview(room), "a target overlaps another buffer"
        others = [bytearray(4) for _ in range(3)]
        plan = coder.Plan(12, [0, 7], [0, 7])
        for name, call in (
            ("add", lambda: coder.add(room, 3, room)),
            ("add", lambda: coder.add(view[:4], 3, view[3:7])),
            ("add", lambda: coder.add(view[3:7], 3, view[:4])),
            ("encode_into", lambda: coder.encode_into(data, [view[:4], view[3:7], *others[:2]])),
            (
                "encode_into",
                lambda: coder.encode_into([*data[:11], view[:4]], [view[2:6], *others]),
            ),
            ("encode_add", lambda: coder.encode_add(12, 0, view[:4], [*others, view[1:5]])),
            (
                "rebuild_into",
                lambda: coder.rebuild_into(12, {**self.left, 9: view[:4]}, 0, view[:4]),
            ),
            ("decode_into", lambda: plan.decode_into(self.left, [view[:4], view[:4]])),
        ):
            self.refuses(f"{name}: {text}", call)
        self.assertEqual(room, b"\xee" * 40)
        coder.add(view[:4], 1, view[4:8])
        self.assertEqual(room[:8], bytes(4) + b"\xee" * 4)


def mapped(data):
    """The bytes in a file in memory."""
    file = mmap.mmap(-1, len(data))
    file.write(data)
    return file


KINDS = (
    bytes,
    bytearray,
    memoryview,
    lambda data: memoryview(bytearray(data)).toreadonly(),
    lambda data: memoryview(data).cast("B", (2, len(data) // 2)),
    lambda data: memoryview(b"x" + data + b"y")[1:-1],
    lambda data: array.array("H", bytes(data)),
    lambda data: (ctypes.c_char * len(data)).from_buffer_copy(data),
    mapped,
)


class Number:
    """A number that is no int."""

    def __init__(self, number):
        self.number = number

    def __index__(self):
        if self.number is None:
            raise KeyError("no number")
        return self.number


class Unequal:
    """A key of a dict that cannot be compared."""

    def __hash__(self):
        return hash(1)

    def __eq__(self, other):
        raise KeyError("not compared")


class Buffers(Refusals):
    """What is taken for the bytes of a fragment."""

    def setUp(self):
        self.fragments = stripe(12, 8)

    def test_each_kind_is_read(self):
        for kind in KINDS:
            whole = [kind(each) for each in self.fragments]
            left = {i: each for i, each in enumerate(whole) if i != 3}
            self.assertEqual(coder.encode(whole[:12]), self.fragments[12:])
            self.assertEqual(coder.rebuild(12, left, 3), self.fragments[3])
            self.assertEqual(coder.rebuild(12, left, 3, 5), self.fragments[3][5:])
            self.assertEqual(coder.decode(12, left, [3]), {3: self.fragments[3]})
            self.assertEqual(coder.Plan(12, [3], [3]).decode(left), {3: self.fragments[3]})
            self.assertTrue(coder.verify(whole))
            target = bytearray(8)
            coder.add(target, 1, whole[5])
            self.assertEqual(target, self.fragments[5])
            parities = [bytearray(8) for _ in range(4)]
            for i in range(12):
                coder.encode_add(12, i, whole[i], parities)
            self.assertEqual(parities, self.fragments[12:])

    def test_bytes_that_are_apart(self):
        apart = memoryview(bytes(16))[::2]
        data = [*self.fragments[:7], apart, *self.fragments[8:12]]
        left = dict(enumerate([*data, *self.fragments[12:]]))
        del left[2]
        text = "fragment 7 is not contiguous: copy it by bytes()"
        plan = coder.Plan(12, [6], [6])
        for name, call in (
            ("encode", lambda: coder.encode(data)),
            ("encode_add", lambda: coder.encode_add(12, 7, apart, 4 * [bytearray(8)])),
            ("rebuild", lambda: coder.rebuild(12, left, 2)),
            ("rebuild", lambda: coder.rebuild(12, left, 2, 0, 4)),
            ("decode", lambda: coder.decode(12, left, [2])),
            ("decode", lambda: plan.decode(left)),
        ):
            self.refuses(f"{name}: {text}", call)
        text = "is not contiguous: copy it by bytes()"
        self.refuses(f"add: the source {text}", coder.add, bytearray(8), 1, apart)
        self.refuses(f"split: the data {text}", coder.split, apart, 4)

    def test_an_error_holds_no_buffer(self):
        short = bytearray(7)
        data = [short, *self.fragments[1:12]]
        for call in (
            lambda: coder.encode(data),
            lambda: coder.encode_into(self.fragments[:12], [short, *3 * [bytearray(8)]]),
            lambda: coder.encode_into(self.fragments[:12], [short, *3 * [bytes(8)]]),
        ):
            try:
                call()
            except ValueError as error:
                short.append(0)
                short.pop()
                self.assertIsNotNone(error.__traceback__)
            else:
                self.fail("no error")

    def test_what_is_no_buffer(self):
        for value, name in (("text", "str"), (None, "NoneType"), (8, "int"), ([1], "list")):
            data = [value, *self.fragments[1:12]]
            left = dict(enumerate([*data, *self.fragments[12:15]]))
            for call in (
                lambda: coder.encode(data),
                lambda: coder.rebuild(12, left, 15),
                lambda: coder.decode(12, left, [15]),
                lambda: coder.encode_add(12, 0, value, 4 * [bytearray(8)]),
            ):
                with self.assertRaisesRegex(
                    TypeError, f": fragment 0 is of {name}, expected bytes or a buffer$"
                ):
                    call()
        for call in (
            lambda: coder.rebuild("12", {}, 0),
            lambda: coder.rebuild(12, {"1": b""}, 0),
            lambda: coder.rebuild(12, 3, 0),
            lambda: coder.rebuild(12, {}, "0"),
            lambda: coder.rebuild(12, {}, 0, "0"),
            lambda: coder.encode(3),
            lambda: coder.add(bytearray(), "1", b""),
        ):
            self.assertRaises((TypeError, ValueError), call)

    def test_numbers(self):
        left = {Number(i): it for i, it in enumerate(self.fragments) if i != 2}
        self.assertEqual(coder.rebuild(12, left, 2), self.fragments[2])
        self.assertRaises(TypeError, coder.rebuild, 12, {**left, 5: bytes(8)}, 2)
        for number in (-1, 16, 255, 256, 2**64, -(2**64)):
            text = f"fragment {number} is not in 0 to 15"
            self.refuses(f"rebuild: {text}", coder.rebuild, 12, {number: bytes(8)}, 2)
            self.refuses(f"rebuild: {text}", coder.rebuild, 12, {}, number)
            self.refuses(f"decode: {text}", coder.decode, 12, {}, [0, number])
            text = f"coefficient {number} is not in 0 to 255"
            if number != 16 and number != 255:
                self.refuses(f"add: {text}", coder.add, bytearray(8), number, bytes(8))
        for call in (
            lambda: coder.rebuild(12, {Number(None): b""}, 2),
            lambda: coder.rebuild(12, {}, Number(None)),
            lambda: coder.rebuild(12, {}, 2, Number(None)),
            lambda: coder.Plan(12, [0], [0]).decode({Unequal(): b""}),
        ):
            self.assertRaises(KeyError, call)

    def test_memory_that_there_is_not(self):
        self.assertRaises(MemoryError, coder.rebuild, 12, {}, 0, 0, 2**62)
        self.assertRaises(MemoryError, coder.decode, 12, {}, [0], 0, 2**62)
        left = dict(enumerate(self.fragments[1:], 1))
        wrong = f"rebuild: fragment 1 has 8 bytes, the range ends at {2**63 + 6}"
        self.refuses(wrong, coder.rebuild, 12, left, 0, 7, 2**63 - 1)

    def test_each_mapping_and_sequence(self):
        left = {i: it for i, it in enumerate(self.fragments) if i not in (1, 8)}
        for kind in (types.MappingProxyType, collections.UserDict, collections.OrderedDict):
            self.assertEqual(coder.rebuild(12, kind(left), 1), self.fragments[1])
            self.assertEqual(coder.decode(12, kind(left), (1,)), {1: self.fragments[1]})
            self.assertEqual(coder.Plan(12, [8], [8]).decode(kind(left)), {8: self.fragments[8]})
        self.assertEqual(coder.encode(collections.deque(self.fragments[:12])), self.fragments[12:])

    def test_a_plan_of_other_bytes(self):
        plan, left = coder.Plan(12, [0], [0]), dict(enumerate(self.fragments))
        made = plan._words[0]
        for words in (made + b"x", made[:23], bytes(24), b"\xff" * 24):
            plan._words = (words, *plan._words[1:])
            self.refuses("decode: an argument is invalid", plan.decode, left)

    def test_words_of_another_count(self):
        for call in (_coder.encode, _coder.encode_add, _coder.rebuild, _coder.decode, _coder.add):
            with self.assertRaisesRegex(TypeError, "takes . arguments, not 1$"):
                call(())
        self.assertRaises(TypeError, _coder.plan_decode, ())
        self.assertRaises(TypeError, _coder.plan_decode, (), {}, 0, None, None)
        for call in (_coder.plan, _coder.recipe, _coder.is_open, _coder.text):
            self.assertRaises(TypeError, call, "x")
        self.assertEqual(_coder.encode([], None), 2)
        self.assertEqual(_coder.rebuild(12, [], 0, 0, None, None), 2)
        self.assertEqual(_coder.decode(12, {}, [0], 0, None), 2)


class Stripes(Refusals):
    """split, verify and join."""

    def test_data_comes_back(self):
        for count, width, length in itertools.product((12, 6), (1, 5), (0, 1, 29, 30, 60, 61, 300)):
            data = bytes((7 * i + i // 251) % 256 for i in range(length))
            stripes = list(coder.split(data, width, count))
            self.assertEqual(len(stripes), -(-length // (width * count)))
            self.assertTrue(all(map(coder.verify, stripes)))
            self.assertEqual({len(it) for each in stripes for it in each} <= {width}, True)
            self.assertEqual([len(it) for it in stripes], len(stripes) * [count + 4])
            self.assertEqual(coder.join(stripes, length), data)
            padding = b"".join(b"".join(it[:-4]) for it in stripes)[length:]
            self.assertEqual(padding, bytes(len(padding)))

    def test_data_of_each_kind(self):
        data = bytes(range(200))
        for kind in KINDS:
            stripes = [list(map(kind, it)) for it in coder.split(kind(data), 4)]
            self.assertEqual(coder.join(iter(stripes), 200), data)
        self.assertEqual(coder.join(coder.split(array.array("I"), 4), 0), b"")

    def test_data_is_not_copied(self):
        data = bytearray(96)
        first, second = coder.split(data, 4)
        data[50] = 7
        self.assertEqual((second[0][2], first[0][2]), (7, 0))
        self.assertRaises(BufferError, data.append, 1)
        self.assertFalse(coder.verify(second))
        self.assertTrue(coder.verify(first))

    def test_a_wrong_byte(self):
        for count in (12, 6):
            whole = list(map(bytearray, stripe(count, 3)))
            for fragment, at in itertools.product(range(count + 4), range(3)):
                whole[fragment][at] ^= 1
                self.assertFalse(coder.verify(whole))
                with self.assertRaises(coder.Inconsistent) as caught:
                    coder.join([stripe(count, 3), whole], 4 * count)
                self.assertEqual(
                    str(caught.exception), "join: stripe 1: the parities are not those of the data"
                )
                whole[fragment][at] ^= 1
            self.assertTrue(coder.verify(whole))

    def test_what_is_refused(self):
        split, join, verify, whole = coder.split, coder.join, coder.verify, stripe(6, 4)
        self.refuses("split: width 0, expected at least 1", split, b"abc", 0)
        self.refuses("split: width -1, expected at least 1", split, b"abc", -1)
        self.refuses("split: 5 data fragments, expected 12 or 6", split, b"abc", 1, 5)
        self.assertRaises(TypeError, split, "abc", 1)
        self.refuses("verify: 9 fragments, expected 16 or 10", verify, whole[:9])
        wrong = "verify: fragment 9 has 3 bytes, fragment 0 has 4"
        self.refuses(wrong, verify, [*whole[:9], b"abc"])
        self.refuses(f"join: length -1 is not in 0 to {2**63 - 1}", join, [whole], -1)
        self.refuses("join: the stripes have 24 bytes, the length is 25", join, [whole], 25)
        self.refuses("join: the stripes have 0 bytes, the length is 1", join, [], 1)
        self.refuses("join: stripe 1 begins at the length 24", join, [whole, whole], 24)
        self.refuses("join: stripe 0 begins at the length 0", join, [whole], 0)


# ---- by the functions of tests/library/watched.c, which is loaded before the library

WATCHED = ctypes.CDLL(None)
HOOK = ctypes.CFUNCTYPE(None)


def calls_of(width):
    """Calls of each function on fragments of this width, and the buffers that they hold."""
    fragments = [bytearray(each) for each in stripe(12, width)]
    left = dict(enumerate(fragments[1:], 1))
    target, parities = bytearray(width), [bytearray(width) for _ in range(4)]
    plan = coder.Plan(12, [0], [0])
    read = [fragments[i] for i in plan.reads]
    return fragments, (
        ("encode", lambda: coder.encode(fragments[:12]), fragments[:12]),
        (
            "encode_into",
            lambda: coder.encode_into(fragments[:12], parities),
            fragments[:12] + parities,
        ),
        (
            "encode_add",
            lambda: coder.encode_add(12, 0, fragments[0], parities),
            [fragments[0], *parities],
        ),
        ("rebuild", lambda: coder.rebuild(12, left, 0), fragments[1:]),
        ("rebuild_into", lambda: coder.rebuild_into(12, left, 0, target), [*fragments[1:], target]),
        ("decode", lambda: coder.decode(12, left, [0]), fragments[1:]),
        ("decode", lambda: plan.decode(left), read),
        ("decode_into", lambda: plan.decode_into(left, [target]), [*read, target]),
        ("add", lambda: coder.add(target, 3, fragments[0]), [fragments[0], target]),
    )


@unittest.skipUnless(hasattr(WATCHED, "watched_status"), "watched.c is not loaded")
class Watched(Refusals):
    """What the extension module does around a call of the library."""

    def setUp(self):
        self.status = ctypes.c_uint32.in_dll(WATCHED, "watched_status")
        self.has_gil = ctypes.c_int.in_dll(WATCHED, "watched_has_gil")

    @contextlib.contextmanager
    def during_calls(self, function):
        """Has a function called before each function of the library."""
        found, hook = [], ctypes.c_void_p.in_dll(WATCHED, "watched_hook")
        callback = HOOK(lambda: found.append(function()))
        hook.value = ctypes.cast(callback, ctypes.c_void_p).value
        try:
            yield found
        finally:
            hook.value = None

    def test_what_the_library_refuses(self):
        fragments, calls = calls_of(4)
        small = (
            ("is_unrecoverable", lambda: coder.is_unrecoverable(12, [0], 0), []),
            ("Plan", lambda: coder.Plan(12, [0], [0]), []),
            ("recipe", lambda: coder.recipe(12, [0], 0), []),
        )
        before = list(map(bytes, fragments))
        for status, text in ((2, "an argument is invalid"), (3, "unknown status")):
            for name, call, _ in (*calls, *small):
                self.status.value = status
                self.addCleanup(setattr, self.status, "value", 0)
                self.refuses(f"{name}: {text}", call)
                self.status.value = 0
        self.assertEqual(fragments, before)
        for each in fragments:
            each.append(0)

    def test_long_calls_let_go_of_the_gil(self):
        for width, has_gil in ((0, 1), (16384, 1), (16385, 0), (65536, 0)):
            for name, call, _ in calls_of(width)[1]:
                self.has_gil.value = 2
                call()
                self.assertEqual(self.has_gil.value, has_gil, (name, width))

    def test_other_threads_run_during_a_call(self):
        def run_another():
            thread = threading.Thread(target=lambda: None)
            thread.start()
            thread.join(60)
            return not thread.is_alive()

        for name, call, _ in calls_of(16385)[1]:
            with self.during_calls(run_another) as found:
                call()
            self.assertEqual(found, [True], name)

    def test_buffers_are_held_during_a_call_alone(self):
        """Each buffer that a call uses keeps its length until the call ends."""
        for name, call, buffers in calls_of(16)[1]:

            def resized():
                return sum(map(is_resized, buffers))

            with self.during_calls(resized) as found:
                call()
            self.assertEqual(found, [0], name)
            self.assertEqual(sum(map(is_resized, buffers)), len(buffers), name)

    def test_a_dict_that_changes_during_a_call(self):
        """Its fragments stay until the call ends."""
        fragments = stripe(12, 20000)
        left = {i: bytes(bytearray(it)) for i, it in enumerate(fragments) if i}
        with self.during_calls(left.clear) as found:
            self.assertEqual(coder.rebuild(12, left, 0), fragments[0])
        self.assertEqual((found, left), ([None], {}))

    def test_bytes_are_not_copied(self):
        """What another thread writes while a call runs is read."""
        fragments = [bytearray(8) for _ in range(12)]

        def write():
            fragments[5][3] = 1

        with self.during_calls(write):
            self.assertEqual(coder.encode(fragments)[0], bytes([0, 0, 0, 1, 0, 0, 0, 0]))


def is_resized(buffer):
    """Whether a bytearray can be resized, which it is twice then."""
    try:
        buffer.append(0)
        buffer.pop()
    except BufferError:
        return False
    return True


class Threads(unittest.TestCase):
    def test_calls_at_once(self):
        wrong = []

        def work(seed):
            data = [bytes([(seed + i) % 256]) * 40000 for i in range(12)]
            whole = [*data, *coder.encode(data)]
            left = {i: it for i, it in enumerate(whole) if i not in (1, 2, 3)}
            plan = coder.Plan(12, [1, 2, 3], [2])
            for _ in range(20):
                if coder.encode(data) != whole[12:] or coder.rebuild(12, left, 1) != data[1]:
                    wrong.append(seed)
                if plan.decode(left) != {2: data[2]}:
                    wrong.append(seed)

        threads = [threading.Thread(target=work, args=(50 * i,)) for i in range(4)]
        for thread in threads:
            thread.start()
        for thread in threads:
            thread.join()
        self.assertEqual(wrong, [])


class Leaks(unittest.TestCase):
    """Calls leave no object and hold no buffer."""

    def grows(self, call):
        """How many blocks of memory Python has more after three hundred calls."""
        for _ in range(50):
            call()
        gc.collect()
        before = sys.getallocatedblocks()
        for _ in range(300):
            call()
        gc.collect()
        return sys.getallocatedblocks() - before

    def leaves_nothing(self, name, call, buffers):
        before = [sys.getrefcount(each) for each in buffers]
        self.assertLess(self.grows(call), 150, name)
        self.assertEqual([sys.getrefcount(each) for each in buffers], before, name)
        self.assertTrue(all(map(is_resized, filter(is_bytearray, buffers))), name)

    def test_calls(self):
        for name, call, buffers in calls_of(16)[1]:
            self.leaves_nothing(name, call, buffers)
        whole = stripe(12, 16)
        left = dict(enumerate(whole[1:], 1))
        plan = coder.Plan(12, [0], [0])
        self.leaves_nothing("encode", lambda: coder.encode(whole[:12]), whole)
        self.leaves_nothing("rebuild", lambda: coder.rebuild(12, left, 0), whole)
        self.leaves_nothing("decode", lambda: plan.decode(left), whole)
        self.leaves_nothing("recipe", lambda: coder.recipe(12, [0], 0), [])
        self.leaves_nothing("Plan", lambda: coder.Plan(12, [0], [0]), [])
        self.leaves_nothing("join", lambda: coder.join(coder.split(bytes(99), 4), 99), [])

    def test_calls_that_are_refused(self):
        fragments = [bytearray(each) for each in stripe(12, 16)]
        left = dict(enumerate(fragments[1:], 1))
        short, target = {**left, 15: bytearray(3)}, bytearray(16)
        plan = coder.Plan(12, [0], [0])
        for call in (
            lambda: coder.encode([*fragments[:11], bytes(3)]),
            lambda: coder.encode([*fragments[:11], "text"]),
            lambda: coder.encode(fragments[:11]),
            lambda: coder.encode_into(fragments[:12], [target, target, target, target]),
            lambda: coder.encode_into(fragments[:12], [target, bytes(16), bytes(16), bytes(16)]),
            lambda: coder.rebuild(12, short, 0),
            lambda: coder.rebuild(12, left, 1),
            lambda: coder.rebuild(12, {i: left[i] for i in range(1, 11)}, 0),
            lambda: coder.rebuild(12, {**left, Number(16): target}, 0),
            lambda: coder.rebuild(12, {}, 0, 0, 2**62),
            lambda: coder.rebuild_into(12, left, 0, fragments[2]),
            lambda: coder.decode(12, left, [0, 1]),
            lambda: coder.decode(12, {**left, 16: b""}, [0]),
            lambda: plan.decode({i: left[i] for i in range(1, 6)}),
            lambda: plan.decode_into(left, [fragments[1]]),
            lambda: coder.add(target, 3, target),
        ):

            def refused():
                self.assertRaises((ValueError, TypeError, MemoryError), call)

            self.leaves_nothing("refused", refused, [*fragments, target])


def is_bytearray(each):
    return isinstance(each, bytearray)


def compare_vectors(data_fragments, name):
    """Each stripe of a file is encoded, and each lost fragment rebuilt or open as the file says."""
    compared, fragments, lost = 0, [], ()
    with open(os.path.join(DATA, name), encoding="ascii") as lines:
        for words in map(str.split, lines):
            if words[0] == "stripe":
                fragments = []
            elif words[0] in ("data", "parity"):
                fragments.append(b"" if words[2] == "-" else bytes.fromhex(words[2]))
                if len(fragments) == data_fragments + 4:
                    assert (
                        coder.encode(fragments[:data_fragments]) == fragments[data_fragments:]
                    )
                    compared += 1
            elif words[0] == "lost":
                lost = [i for i in range(data_fragments + 4) if int(words[1], 16) >> i & 1]
            else:
                left = {i: data for i, data in enumerate(fragments) if i not in lost}
                fragment, width = int(words[1]), len(fragments[0])
                for rebuild in (
                    coder.rebuild,
                    lambda *of: coder.decode(of[0], of[1], [of[2]], *of[3:])[of[2]],
                ):
                    try:
                        rebuilt = rebuild(data_fragments, left, fragment, 0, width).hex() or "-"
                    except Unrecoverable:
                        rebuilt = "open"
                    assert rebuilt == words[2], words
                compared += 1
    return compared


def main():
    ran = unittest.main(verbosity=0, exit=False).result
    if not ran.wasSuccessful():
        return 1
    assert (
        b"".join(coder.encode([bytes([letter]) for letter in b"ABCDEFGHIJKL"])).hex()
        == "070b139f"
    )
    assert [count_whole(12, size) for size in range(1, 6)] == [
        (16, 16),
        (120, 120),
        (560, 560),
        (1568, 1820),
        (0, 4368),
    ]
    assert [count_whole(6, size) for size in range(1, 6)] == [
        (10, 10),
        (45, 45),
        (120, 120),
        (180, 210),
        (0, 252),
    ]
    files = [
        (12, "encode_wide.txt"),
        (6, "encode_small.txt"),
        (12, "decode_wide.txt"),
        (6, "decode_small.txt"),
    ]
    compared = sum(compare_vectors(data_fragments, name) for data_fragments, name in files)
    print(
        f"Python: the sets of up to five lost fragments, {compared} vectors of other programs, "
        f"{ran.testsRun} other tests"
    )
    return 0


if __name__ == "__main__":
    sys.exit(main())
