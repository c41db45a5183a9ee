"""The 16-bit instructions of RV32 without floating point, and the word of 32 bits that each means.

Written from the RISC-V manual, the chapter on the extension C for compressed instructions: the rows are those of its tables "RVC
Instruction Set Listings", apart from the code of the program that is tested.
"""

import collections
import functools
import re

from machine_code import branch_word, immediate_word, register_word, store_word

EBREAK = 0x00100073


def jump_word(offset, rd):
    fields = (offset >> 20 & 1) << 31 | (offset >> 1 & 0x3FF) << 21 | (offset >> 11 & 1) << 20 | (offset >> 12 & 0xFF) << 12
    return fields | rd << 7 | 0x6F


def addi(rd, rs1, number):
    return immediate_word(0x13, number, rs1, 0, rd)


def shift(funct3, rd, amount, arithmetic=0):
    return immediate_word(0x13, arithmetic << 10 | amount, rd, funct3, rd)


# A row: its name, its fields from bit 15 down as the manual has them, the word that it means, and which fields are not which numbers.
# A field ' is of three bits, for x8 to x15. Of an immediate the bits stand that the field has, imm is signed and uimm is not. A 0 in the
# place of a bit that RV32 reserves, the sixth of an amount, stands as such.
Row = collections.namedtuple("Row", "name fields word never", defaults=({},))

ROWS = (
    Row("C.ADDI4SPN", "000 uimm[5:4|9:6|2|3] rd' 00", lambda f: addi(f["rd"], 2, f["uimm"]), {"uimm": (0,)}),
    Row("C.LW", "010 uimm[5:3] rs1' uimm[2|6] rd' 00", lambda f: immediate_word(0x03, f["uimm"], f["rs1"], 2, f["rd"])),
    Row("C.SW", "110 uimm[5:3] rs1' uimm[2|6] rs2' 00", lambda f: store_word(f["uimm"], f["rs2"], f["rs1"], 2)),
    Row("C.ADDI", "000 imm[5] rd imm[4:0] 01", lambda f: addi(f["rd"], f["rd"], f["imm"])),
    Row("C.JAL", "001 imm[11|4|9:8|10|6|7|3:1|5] 01", lambda f: jump_word(f["imm"], 1)),
    Row("C.LI", "010 imm[5] rd imm[4:0] 01", lambda f: addi(f["rd"], 0, f["imm"])),
    Row("C.ADDI16SP", "011 imm[9] 00010 imm[4|6|8:7|5] 01", lambda f: addi(2, 2, f["imm"]), {"imm": (0,)}),
    Row("C.LUI", "011 imm[17] rd imm[16:12] 01", lambda f: f["imm"] & 0xFFFFF000 | f["rd"] << 7 | 0x37, {"rd": (2,), "imm": (0,)}),
    Row("C.SRLI", "100 0 00 rd' uimm[4:0] 01", lambda f: shift(5, f["rd"], f["uimm"])),
    Row("C.SRAI", "100 0 01 rd' uimm[4:0] 01", lambda f: shift(5, f["rd"], f["uimm"], 1)),
    Row("C.ANDI", "100 imm[5] 10 rd' imm[4:0] 01", lambda f: immediate_word(0x13, f["imm"], f["rd"], 7, f["rd"])),
    Row("C.SUB", "100 0 11 rd' 00 rs2' 01", lambda f: register_word(0x20, f["rs2"], f["rd"], 0, f["rd"])),
    Row("C.XOR", "100 0 11 rd' 01 rs2' 01", lambda f: register_word(0, f["rs2"], f["rd"], 4, f["rd"])),
    Row("C.OR", "100 0 11 rd' 10 rs2' 01", lambda f: register_word(0, f["rs2"], f["rd"], 6, f["rd"])),
    Row("C.AND", "100 0 11 rd' 11 rs2' 01", lambda f: register_word(0, f["rs2"], f["rd"], 7, f["rd"])),
    Row("C.J", "101 imm[11|4|9:8|10|6|7|3:1|5] 01", lambda f: jump_word(f["imm"], 0)),
    Row("C.BEQZ", "110 imm[8|4:3] rs1' imm[7:6|2:1|5] 01", lambda f: branch_word(f["imm"], 0, f["rs1"], 0)),
    Row("C.BNEZ", "111 imm[8|4:3] rs1' imm[7:6|2:1|5] 01", lambda f: branch_word(f["imm"], 0, f["rs1"], 1)),
    Row("C.SLLI", "000 0 rd uimm[4:0] 10", lambda f: shift(1, f["rd"], f["uimm"])),
    Row("C.LWSP", "010 uimm[5] rd uimm[4:2|7:6] 10", lambda f: immediate_word(0x03, f["uimm"], 2, 2, f["rd"]), {"rd": (0,)}),
    Row("C.JR", "100 0 rs1 00000 10", lambda f: immediate_word(0x67, 0, f["rs1"], 0, 0), {"rs1": (0,)}),
    Row("C.MV", "100 0 rd rs2 10", lambda f: register_word(0, f["rs2"], 0, 0, f["rd"]), {"rs2": (0,)}),
    Row("C.EBREAK", "100 1 00000 00000 10", lambda f: EBREAK),
    Row("C.JALR", "100 1 rs1 00000 10", lambda f: immediate_word(0x67, 0, f["rs1"], 0, 1), {"rs1": (0,)}),
    Row("C.ADD", "100 1 rd rs2 10", lambda f: register_word(0, f["rs2"], f["rd"], 0, f["rd"]), {"rs2": (0,)}),
    Row("C.SWSP", "110 uimm[5:2|7:6] rs2 10", lambda f: store_word(f["uimm"], f["rs2"], 2, 2)),
)

REGISTERS = {"rd": 5, "rs1": 5, "rs2": 5, "rd'": 3, "rs1'": 3, "rs2'": 3}


def places_of(listed):
    """The places of an immediate's bits, as 5:4|9:6|2|3 lists them."""
    for part in listed.split("|"):
        high, _, low = part.partition(":")
        yield from range(int(high), int(low or high) - 1, -1)


@functools.cache
def bits_of(fields):
    """What each of the sixteen bits of a row is, from the highest on: a digit, or a field's name and the place in it."""
    bits = []
    for field in fields.split():
        immediate = re.fullmatch(r"(u?imm)\[(.*)\]", field)
        if immediate:
            bits += [(immediate.group(1), place) for place in places_of(immediate.group(2))]
        elif field in REGISTERS:
            bits += [(field, place) for place in reversed(range(REGISTERS[field]))]
        else:
            bits += field
    assert len(bits) == 16, fields
    return bits


def read(row, halfword):
    """The fields of a halfword by a row, None where its digits are others."""
    found, sign = collections.defaultdict(int), 0
    for at, bit in enumerate(bits_of(row.fields)):
        value = halfword >> 15 - at & 1
        if isinstance(bit, str):
            if value != int(bit):
                return None
        else:
            found[bit[0]] |= value << bit[1]
            sign = max(sign, bit[1] if bit[0] == "imm" else 0)
    if found["imm"] >> sign & 1 and sign:
        found["imm"] -= 2 << sign
    named = {name.rstrip("'"): value + (8 if name.endswith("'") else 0) for name, value in found.items()}
    return None if any(named.get(name) in numbers for name, numbers in row.never.items()) else named


def written(row, **given):
    """The halfword of a row with these fields."""
    halfword = 0
    for bit in bits_of(row.fields):
        if isinstance(bit, str):
            halfword = halfword << 1 | int(bit)
        else:
            name = bit[0].rstrip("'")
            halfword = halfword << 1 | given[name] - (8 if bit[0].endswith("'") else 0) >> bit[1] & 1
    return halfword


@functools.cache
def row_of(halfword):
    """The row of a halfword, None where it is no instruction."""
    return next((row for row in ROWS if read(row, halfword) is not None), None)


@functools.cache
def expanded(halfword):
    """The word that a halfword means, None where it is no instruction of 16 bits."""
    row = row_of(halfword)
    return None if row is None else row.word(read(row, halfword))
