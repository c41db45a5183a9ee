"""Executables for RV32, made from nothing, and the first fault of any bytes, by the tables of the System V gABI (chapters
4 and 5) and of the RISC-V psABI (the flags of the file header)."""

import collections
import struct
from dataclasses import dataclass, field

HEADER, PROGRAM_HEADER, SECTION_HEADER, SYMBOL = 52, 32, 40, 16
PT_LOAD, PT_DYNAMIC, PT_INTERP, PT_NOTE = 1, 2, 3, 4
PF_X, PF_W, PF_R = 1, 2, 4
SHT_SYMTAB, SHT_STRTAB = 2, 3
STB_LOCAL, STB_GLOBAL, STB_WEAK = 0, 1, 2
STT_NOTYPE, STT_OBJECT, STT_FUNC, STT_SECTION = 0, 1, 2, 3
EM_RISCV, ET_EXEC = 243, 2
SHN_UNDEF, SHN_ABS = 0, 0xFFF1
MOST_MEMORY, MOST_SEGMENTS = 1 << 24, 64

NAMES = {"G1": "not a program for RV32", "G2": "truncated", "G3": "memory"}


@dataclass
class Segment:
    """A part of memory: what the file has of it, and how many bytes it has (without a size, as many)."""

    address: int
    bytes: bytes
    size: int = None
    flags: int = PF_R
    kind: int = PT_LOAD

    def memory_size(self):
        return len(self.bytes) if self.size is None else self.size


@dataclass
class Symbol:
    name: str
    value: int
    size: int = 0
    kind: int = STT_NOTYPE
    binding: int = STB_GLOBAL
    section: int = 1


@dataclass
class Elf:
    """What a file is to have: its header, program headers, the bytes of the segments, symbols, their names, section headers."""

    segments: list = field(default_factory=list)
    symbols: list = field(default_factory=list)
    flags: int = 0
    with_table: bool = True

    def places(self):
        """Where the bytes of each segment, the symbols, their names and the section headers begin; and the names."""
        at = HEADER + PROGRAM_HEADER * len(self.segments)
        contents = []
        for segment in self.segments:
            contents.append(at)
            at += len(segment.bytes)
        names = b"\0" + b"".join(symbol.name.encode() + b"\0" for symbol in self.symbols)
        strings = at + SYMBOL * (1 + len(self.symbols))
        return contents, at, strings, strings + len(names), names

    def header(self, sections):
        count = 3 if self.with_table else 0
        first = b"\x7fELF" + bytes([1, 1, 1]) + bytes(9)
        numbers = ET_EXEC, EM_RISCV, 1, 0, HEADER if self.segments else 0, sections if self.with_table else 0
        sizes = HEADER, PROGRAM_HEADER, len(self.segments), SECTION_HEADER, count, 0
        return first + struct.pack("<HHIIII", *numbers) + struct.pack("<I6H", self.flags, *sizes)

    def table(self, symbols, strings, names):
        """The symbols, their names, and the section headers."""
        out, at = bytes(SYMBOL), 1
        for symbol in self.symbols:
            info = symbol.binding * 16 + symbol.kind
            out += struct.pack("<IIIBBH", at, symbol.value, symbol.size, info, 0, symbol.section)
            at += len(symbol.name.encode()) + 1
        out += names + bytes(SECTION_HEADER)
        out += struct.pack("<10I", 0, SHT_SYMTAB, 0, 0, symbols, SYMBOL * (1 + len(self.symbols)), 2, 1, 4, SYMBOL)
        return out + struct.pack("<10I", 0, SHT_STRTAB, 0, 0, strings, len(names), 0, 0, 1, 0)

    def bytes(self):
        contents, symbols, strings, sections, names = self.places()
        out = self.header(sections)
        for segment, place in zip(self.segments, contents):
            sizes = len(segment.bytes), segment.memory_size()
            out += struct.pack("<8I", segment.kind, place, segment.address, segment.address, *sizes, segment.flags, 4)
        out += b"".join(segment.bytes for segment in self.segments)
        return out + (self.table(symbols, strings, names) if self.with_table else b"")


def number(data, place, size=4):
    return int.from_bytes(data[place : place + size], "little")


class Fault(Exception):
    """The first thing that is wrong with a file: a code, and the byte of the field that it is about."""


def require(code, place, holds):
    if not holds:
        raise Fault(code, place)


def check_header(data):
    """The fields of Elf32_Ehdr in their order: each is in the file, and has a value that it may have."""
    rows = (
        (0, 4, lambda n: n == 0x464C457F),
        (4, 1, lambda n: n == 1),
        (5, 1, lambda n: n == 1),
        (6, 1, lambda n: n == 1),
        (16, 2, lambda n: n == ET_EXEC),
        (18, 2, lambda n: n == EM_RISCV),
        (20, 4, lambda n: n == 1),
        (24, 4, lambda n: True),
        (28, 4, lambda n: n + PROGRAM_HEADER * number(data, 44, 2) <= len(data)),
        (32, 4, lambda n: n + SECTION_HEADER * number(data, 48, 2) <= len(data)),
        (36, 4, lambda n: n & 0b1110 == 0),
        (42, 2, lambda n: n == PROGRAM_HEADER or number(data, 44, 2) == 0),
        (44, 2, lambda n: True),
        (46, 2, lambda n: n == SECTION_HEADER or number(data, 48, 2) == 0),
        (48, 2, lambda n: True),
    )
    for place, size, allows in rows:
        require("G2", place, place + size <= len(data))
        require("G2" if place in (28, 32) else "G1", place, allows(number(data, place, size)))


# A segment that is loaded, as far as others have to do with it.
Loaded = collections.namedtuple("Loaded", "begin end")


def apart(one, other):
    """Whether one ends where the other begins, or before."""
    return one.end <= other.begin or other.end <= one.begin


def check_segments(data):
    """Each Elf32_Phdr: none is for a dynamic linker, and what is loaded is not too much, and lies in the file and apart in memory."""
    loaded = []
    for k in range(number(data, 44, 2)):
        place = number(data, 28) + PROGRAM_HEADER * k
        kind, offset, address, _, in_file, size = struct.unpack_from("<6I", data, place)
        if kind != PT_LOAD:
            require("G1", place, kind not in (PT_DYNAMIC, PT_INTERP))
            continue
        segment = Loaded(address, address + size)
        require("G3", place, len(loaded) < MOST_SEGMENTS)
        require("G2", place + 4, offset + in_file <= len(data))
        require("G3", place + 8, all(apart(segment, other) for other in loaded))
        require("G3", place + 8, segment.end <= 1 << 32)
        require("G1", place + 16, in_file <= size)
        loaded.append(segment)
        require("G3", place + 20, sum(each.end - each.begin for each in loaded) <= MOST_MEMORY)


def check_symbols(data):
    """The first Elf32_Shdr of type SHT_SYMTAB, and the section that it names for its strings."""
    table, count = number(data, 32), number(data, 48, 2)
    places = [table + SECTION_HEADER * k for k in range(count)]
    first = next((place for place in places if number(data, place + 4) == SHT_SYMTAB), None)
    if first is None:
        return
    lies_inside = lambda place: number(data, place + 16) + number(data, place + 20) <= len(data)  # noqa: E731
    require("G2", first + 16, lies_inside(first))
    require("G1", first + 24, number(data, first + 24) < count)
    require("G1", first + 36, number(data, first + 36) == SYMBOL)
    strings = places[number(data, first + 24)]
    require("G2", strings + 16, lies_inside(strings))


def first_fault(data):
    """How the first fault of a file is told, None where it is a program."""
    try:
        check_header(data)
        check_segments(data)
        check_symbols(data)
    except Fault as fault:
        code, place = fault.args
        return f"{code} at byte {place}: {NAMES[code]}"
    return None
