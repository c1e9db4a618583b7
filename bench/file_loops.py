#!/usr/bin/env python3
"""A file in 16 fragments of a Reed-Solomon code by zfec or ISA-L, for bench/files.py.

    bench/file_loops.py zfec|isal split FILE FOLDER
    bench/file_loops.py zfec|isal repair FOLDER NUMBER..

Neither has a command in Debian. A stripe has 12 blocks of 64 KiB of the file, and 4 parities. Block
k stands in FOLDER/k, without a checksum. `repair` makes fragments of data from 12 others.
"""

import ctypes
import os
import sys

DATA, ALL, WIDTH = 12, 16, 65_536


class Zfec:
    """Debian's python3-zfec."""

    def __init__(self):
        import zfec

        self.encoder, self.decoder = zfec.Encoder(DATA, ALL), zfec.Decoder(DATA, ALL)

    def encode(self, stripe):
        return self.encoder.encode(blocks_of(stripe), list(range(DATA, ALL)))

    def rebuild(self, stripe, numbers, lost):
        whole = self.decoder.decode(blocks_of(stripe), numbers)
        return [whole[number] for number in lost]


class Isal:
    """Debian's libisal2, by a Cauchy matrix."""

    def __init__(self):
        self.isal = ctypes.CDLL("libisal.so.2")
        self.matrix = ctypes.create_string_buffer(DATA * ALL)
        self.isal.gf_gen_cauchy1_matrix(self.matrix, ALL, DATA)
        self.parities = self.tables(self.rows(range(DATA, ALL)))

    def rows(self, numbers):
        """Rows of the matrix."""
        return b"".join(self.matrix.raw[DATA * k : DATA * (k + 1)] for k in numbers)

    def tables(self, rows):
        """How many rows there are, their tables, and room for what they make."""
        count = len(rows) // DATA
        tables = ctypes.create_string_buffer(32 * len(rows))
        self.isal.ec_init_tables(DATA, count, rows, tables)
        return count, tables, bytearray(count * WIDTH)

    def apply(self, stripe, count, tables, made):
        self.isal.ec_encode_data(
            WIDTH, DATA, count, tables, pointers(stripe, DATA), pointers(made, count)
        )
        return blocks_of(made)

    def encode(self, stripe):
        return self.apply(stripe, *self.parities)

    def rebuild(self, stripe, numbers, lost):
        inverse = ctypes.create_string_buffer(DATA * DATA)
        self.isal.gf_invert_matrix(self.rows(numbers), inverse, DATA)
        rows = b"".join(inverse.raw[DATA * k : DATA * (k + 1)] for k in lost)
        return self.apply(stripe, *self.tables(rows))


def pointers(blocks, count):
    """Where each of so many blocks begins, which lie one behind the other."""
    start = ctypes.addressof(ctypes.c_char.from_buffer(blocks))
    return (ctypes.c_void_p * count)(*(start + WIDTH * k for k in range(count)))


def blocks_of(blocks):
    view = memoryview(blocks)
    return [view[at : at + WIDTH] for at in range(0, len(view), WIDTH)]


def split(code, path, folder):
    stripe = bytearray(DATA * WIDTH)
    targets = [open(os.path.join(folder, str(k)), "wb", buffering=0) for k in range(ALL)]
    with open(path, "rb", buffering=0) as source:
        while size := source.readinto(stripe):
            stripe[size:] = bytes(len(stripe) - size)
            for target, block in zip(targets, [*blocks_of(stripe), *code.encode(stripe)]):
                target.write(block)


def repair(code, folder, lost):
    """Zfec wants each fragment of data that is there in its own place, and parities in the rest."""
    parities = iter(range(DATA, ALL))
    numbers = [next(parities) if k in lost else k for k in range(DATA)]
    stripe = bytearray(DATA * WIDTH)
    sources = [open(os.path.join(folder, str(k)), "rb", buffering=0) for k in numbers]
    targets = [open(os.path.join(folder, str(k)), "wb", buffering=0) for k in lost]
    while all([source.readinto(block) for source, block in zip(sources, blocks_of(stripe))]):
        for target, block in zip(targets, code.rebuild(stripe, numbers, lost)):
            target.write(block)


def main():
    library, verb, *words = sys.argv[1:]
    code = {"zfec": Zfec, "isal": Isal}[library]()
    if verb == "split":
        split(code, *words)
    else:
        repair(code, words[0], [int(number) for number in words[1:]])


if __name__ == "__main__":
    main()
