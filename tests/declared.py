"""What a library's crate exports, and what its header and Rust crate declare.

A type is written as `*const u8`, `*mut slot`, `u64` or `size`.
"""

import os
import re
import sys

TOP = os.path.dirname(os.path.dirname(os.path.abspath(__file__)))
sys.path.append(os.path.join(TOP, "tools"))

import libraries  # noqa: E402
from libraries import read  # noqa: E402,F401

# What C passes for a parameter of each type of an export. A slice is an address and a length.
RATTLE = {
    "Global": [],
    "&[&[u8]]": ["*const slice", "size"],
    "&[&[u8]; 16]": ["*const slice"],
    "&[u8; 4]": ["*const u8"],
    "&[u8; 24]": ["*const u8"],
    "&[u8]": ["*const u8", "size"],
    "&mut [u8]": ["*mut u8", "size"],
    "&mut [u8; 16]": ["*mut u8"],
    "&mut [u8; 24]": ["*mut u8"],
    "&mut [LentSlice<'a>]": ["*mut slice", "size"],
    "&mut LentBuffer<'a>": ["*mut buffer"],
    "&mut [PlanItem<'a>]": ["*mut item", "size"],
    "&mut JournalEntry<'a>": ["*mut entry"],
    "&mut LentSlice<'a>": ["*mut slice"],
    "&mut StoreNumbers": ["*mut numbers"],
    "&mut VersionShape": ["*mut shape"],
    "&mut Slot": ["*mut slot"],
    "&'a mut Slot": ["*mut slot"],
    "&mut u16": ["*mut u16"],
    "&mut u32": ["*mut u32"],
    "&mut u64": ["*mut u64"],
    "usize": ["size"],
    "u64": ["u64"],
    "u32": ["u32"],
    "u16": ["u16"],
    "u8": ["u8"],
}
C = {"size_t": "size", "int64_t": "i64"}
C.update({f"uint{bits}_t": f"u{bits}" for bits in (8, 16, 32, 64)})
STRUCTURES = ("slot", "slice", "buffer", "entry", "item", "numbers", "shape", "options")
STRUCTURES += ("pool", "mending", "shards")
C.update({f"lrc_{kind}": kind for kind in STRUCTURES})
RUST = {"Slot": "slot", "Slice": "slice", "RawBuffer": "buffer", "RawEntry": "entry"}
RUST.update({"RawPool": "pool", "RawNumbers": "numbers", "RawShape": "shape", "usize": "size"})
RUST.update({"RawShards": "shards", "RawOptions": "options", "RawItem": "item"})


def rust_like(pattern, text):
    """The functions of a text in Rust's syntax: each with the types of its parameters."""
    functions = re.findall(pattern + r" fn (\w+)(?:<'a>)?\(([^)]*)\)(?: -> u32|;|\s+ensures)", text)
    for name, parameters in functions:
        yield name, [
            parameter.split(":", 1)[1].strip()
            for parameter in parameters.split(",")
            if parameter.strip()
        ]


def exported(text):
    """The functions of a crate's lib.rt."""
    functions = dict(rust_like(r'#\[unsafe\(no_mangle\)\]\npub extern "C"', text))
    assert len(functions) == len(re.findall("no_mangle", text)) > 0
    return {
        name: [word for type_ in types for word in RATTLE[type_]]
        for name, types in functions.items()
    }


def c_type(parameter):
    """The type of a parameter such as `const uint8_t *name` or `const uint8_t numbers[4]`."""
    const, name, stars, array = re.fullmatch(
        r"(const )?(\w+) (\**)\w+(\[\w+\])?", " ".join(parameter.split())
    ).groups()
    return f"*{'const' if const else 'mut'} " * (len(stars) or bool(array)) + C[name]


def in_header(text):
    """The functions that return a status or nothing."""
    text = re.sub(r"/\*.*?\*/", "", libraries.without_attributes(text), flags=re.S)
    functions = re.findall(r"^(?:uint32_t|void) (\w+)\(([^)]*)\);", text, flags=re.M)
    return {name: [*map(c_type, parameters.split(","))] for name, parameters in functions}


def attributes(text):
    """What a header declares that a compiler can check, and what follows from its parameters: for
    each function whether its status may be ignored, and where an address has a length."""
    text = re.sub(r"/\*.*?\*/", "", text, flags=re.S)
    pattern = r"^(?:uint32_t|void) (\w+)\(([^)]*\*[^)]*)\)([^;{]*);"
    for name, parameters, words in re.findall(pattern, text, flags=re.M):
        given = re.findall(r"LRC_\w+(?:\([\d, ]+\))?", words)
        kinds = [it for it in given if not it.startswith("LRC_FILLS")]
        parameters = [" ".join(it.split()) for it in parameters.split(",")]
        wanted = [kinds[0]]
        for at, (one, after) in enumerate(zip(parameters, parameters[1:]), 1):
            if "*" in one and re.fullmatch(r"size_t (\w*len|capacity|data_fragments)", after):
                is_updated = re.match("lrc_(slice|item)", one) or name.startswith("lrc_encode_add")
                is_updated = is_updated or (name, at) == ("lrc_add", 1)
                kind = "UPDATES" if is_updated else "WRITES"
                kind = "READS" if one.startswith("const") else kind
                wanted.append(f"LRC_{kind}({at}, {at + 1})")
        yield name, kinds, wanted


def in_rust(text):
    def shown(type_):
        start, _, name = type_.rpartition(" ")
        return f"{start} {RUST.get(name, name)}".strip()

    block = re.search(r'extern "C" \{(.*?)\n\}', text, flags=re.S)[1]
    return {name: [*map(shown, types)] for name, types in rust_like("", block)}


def numbers(pattern, text):
    return {name: int(value) for name, value in re.findall(pattern, text)}


def variants(text):
    """The statuses of a Rust crate, by the names of the header."""
    block = re.search(r"pub enum Status \{(.*?)\n\}", text, flags=re.S)[1]
    found = numbers(r"    (\w+) = (\d+),", block)
    return {re.sub(r"(?<!^)(?=[A-Z])", "_", name).upper(): found[name] for name in found}
