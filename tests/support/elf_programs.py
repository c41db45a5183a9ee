"""Small executables made from words of code, each with what `factc elf certify` has to answer, worked out by hand.

A program has the function f at 00010000, bytes that may only be read at 00010800 (`table`), and at 00020000 data that may be
written: four bytes of the file, 01020304 (`counter`), and 32 bytes that the file does not have (`key`).
"""

import collections
import struct

from elf_files import PF_R, PF_W, PF_X, SHN_ABS, STB_LOCAL, STT_FUNC, STT_NOTYPE, STT_OBJECT, Elf, Segment, Symbol
from machine_code import branch_word, immediate_word, register_word, store_word

CODE, TABLE, DATA = 0x10000, 0x10800, 0x20000
RETURN, ECALL, EBREAK, NONE = 0x00008067, 0x00000073, 0x00100073, 0x00000000

# Where an instruction is that no function has.
OUTSIDE = "in 0x{:x}"

# What of a program is asked how (the words behind the file), and what is answered: what is printed, and the status.
Case = collections.namedtuple("Case", "what program request printed status")


def addi(rd, rs1, number):
    return immediate_word(0x13, number, rs1, 0, rd)


def ori(rd, rs1, number):
    return immediate_word(0x13, number, rs1, 6, rd)


def andi(rd, rs1, number):
    return immediate_word(0x13, number, rs1, 7, rd)


def sltiu(rd, rs1, number):
    return immediate_word(0x13, number, rs1, 3, rd)


def slli(rd, rs1, amount):
    return immediate_word(0x13, amount, rs1, 1, rd)


def srli(rd, rs1, amount):
    return immediate_word(0x13, amount, rs1, 5, rd)


def lw(rd, offset, rs1):
    return immediate_word(0x03, offset, rs1, 2, rd)


def lbu(rd, offset, rs1):
    return immediate_word(0x03, offset, rs1, 4, rd)


def sw(rs2, offset, rs1):
    return store_word(offset, rs2, rs1, 2)


def jalr(rd, rs1):
    return immediate_word(0x67, 0, rs1, 0, rd)


def jal(rd, offset):
    """JAL over less than 2 KiB."""
    return (offset >> 31 & 1) << 31 | (offset >> 1 & 0x3FF) << 21 | (offset >> 11 & 1) << 20 | (offset >> 12 & 0xFF) << 12 | rd << 7 | 0x6F


def auipc(rd):
    return rd << 7 | 0x17


def beq(rs1, rs2, offset):
    return branch_word(offset, rs2, rs1, 0)


def bne(rs1, rs2, offset):
    return branch_word(offset, rs2, rs1, 1)


def words_of(code):
    return struct.pack(f"<{len(code)}I", *code)


def elf_of(code, functions=None, global_pointer=True, code_flags=PF_R | PF_X, code_size=None, size=36):
    """The program of some code. `functions` has how many words each of its functions takes; without it, f takes all."""
    symbols, at = [Symbol("table", TABLE, 16, STT_OBJECT)], CODE
    for name, count in (functions or {"f": len(code)}).items():
        symbols.append(Symbol(name, at, 4 * count, STT_FUNC, STB_LOCAL if name == "local" else 1))
        at += 4 * count
    symbols += [Symbol("counter", DATA, 4, STT_OBJECT), Symbol("key", DATA + 4, 32, STT_OBJECT)]
    if global_pointer:
        symbols.append(Symbol("__global_pointer$", DATA + 0x800, 0, STT_NOTYPE, section=SHN_ABS))
    segments = [
        Segment(CODE, words_of(code), code_size, code_flags),
        Segment(TABLE, bytes(range(16)), flags=PF_R),
        Segment(DATA, b"\1\2\3\4", size, PF_R | PF_W),
    ]
    return Elf(segments, symbols)


def certified(stop):
    """What is printed where all runs show the same and end by this stop: one that is no return comes first."""
    return "same\nstop Return\n" if stop == "Return" else f"stop {stop}\nsame\n"


def same(what, code, request=(), stop="Return", **more):
    return Case(what, elf_of(code, **more).bytes(), ["f", *request], certified(stop), 0 if stop == "Return" else 5)


def differs(what, code, request, entry, place, text, where=None, **more):
    """A case that may differ: the entry, which word of the code it is about, its text, and where it is by the symbols."""
    line = f"{CODE + 4 * place:08x} {code[place]:08x} {text}"
    printed = f"may differ at {entry}\n{line}\n{where or f'in f+0x{4 * place:x}'}\n"
    return Case(what, elf_of(code, **more).bytes(), ["f", *request], printed, 1)


# What the word at a0 decides: nothing, where it is 0; else the run ends at EBREAK.
ZERO = [lw(11, 0, 10), beq(11, 0, 8), EBREAK, RETURN]
# The same of a byte, which is changed first.
BEQ = "beq x11, x0, 8"
SECRET_KEY = ["key", "--secret", "key"]


def byte_then(*words):
    """Code that goes on by whether the byte at a0, changed by some words, is 0, and comes back either way."""
    return [lbu(11, 0, 10), *words, beq(11, 0, 8), RETURN, RETURN]


def unless_zero(*words):
    """Code that comes back where the byte at a0, changed by some words, is not 0, and else ends at EBREAK."""
    return [lbu(11, 0, 10), *words, beq(11, 0, 8), RETURN, EBREAK]


def returns():
    yield same("it comes back", [addi(10, 10, 1), RETURN], ["7"])
    yield same("it comes back by another register", [addi(5, 1, 0), jalr(0, 5)])
    yield same("it comes back to another address", [addi(1, 1, 4), RETURN], stop="AccessFault")
    yield same("it goes to where nothing is", [jalr(0, 0)], stop="AccessFault")
    yield same("it goes to data", [jalr(0, 10)], ["counter"], stop="AccessFault")
    yield same("it goes past its code", [addi(10, 10, 1)], stop="AccessFault")
    yield same("it goes to where the file has no code", [addi(10, 10, 1)], stop="AccessFault", code_size=64)
    yield differs("it goes to a secret address", [lw(1, 0, 10), RETURN], SECRET_KEY, 3, 1, "jalr x0, 0(x1)")
    yield same("ECALL", [ECALL], stop="Ecall")
    yield same("EBREAK", [EBREAK], stop="Break")
    yield same("no instruction", [NONE], stop="Illegal")
    yield same("too many steps", [jal(0, 0)], ["--steps", "1000"], stop="Budget")


def stores():
    store, code = [sw(0, 0, 10), RETURN], [auipc(5), sw(0, 8, 5), RETURN]
    yield same("a store to data", store, ["key"])
    yield same("a store to what may only be read", store, ["table"], stop="AccessFault")
    yield same("a store to code", store, ["f"], stop="AccessFault")
    yield same("a store behind all segments", store, ["key+32"], stop="AccessFault")
    yield same("a store to code that may be written", code, stop="AccessFault", code_flags=PF_R | PF_W | PF_X)
    yield same("a store to the stack's last word", [sw(0, -4, 2), RETURN])
    yield same("a store behind the stack", [sw(0, 0, 2), RETURN], stop="AccessFault")
    yield same("a store to the stack's first word", [sw(0, -16, 2), RETURN], ["--stack", "16"])
    yield same("a store before the stack", [sw(0, -20, 2), RETURN], ["--stack", "16"], stop="AccessFault")
    yield same("no stack", [sw(0, -4, 2), RETURN], ["--stack", "0"], stop="AccessFault")
    yield same("a misaligned load", [lw(11, 2, 10), RETURN], ["key"], stop="Misaligned")


def loads():
    for place in ("key", "key+28", "key+0x1c"):
        yield same(f"bytes that the file does not have are 0: {place}", ZERO, [place])
    yield same("a load behind a segment", ZERO, ["key+32"], stop="AccessFault")
    yield same("bytes that the file has are not 0", ZERO, ["counter"], stop="Break")
    yield same("a table is read", ZERO, ["table+4"], stop="Break")
    yield same("code is read", ZERO, ["f"], stop="Break")
    yield same("what is set is known", ZERO, ["key", "--set", "key=hex:0000000007"])
    yield same("what is set is there", ZERO, ["key+4", "--set", "key=hex:0000000007"], stop="Break")
    yield same("what is set last stays", ZERO, ["key", "--set", "key=hex:07", "--set", "key=hex:00"])
    yield same("a table is set", ZERO, ["table+4", "--set", "table=hex:0001020300000000"])
    yield same("an address by the global pointer", [lw(11, -2044, 3), *ZERO[1:]])
    yield differs("without a global pointer", [lw(11, -2044, 3), *ZERO[1:]], [], 1, 0, "lw x11, -2044(x3)", global_pointer=False)


def secrets():
    yield differs("a secret", ZERO, SECRET_KEY, 3, 1, BEQ)
    yield differs("the last word of a secret", ZERO, ["key+28", "--secret", "key"], 3, 1, BEQ)
    yield differs("a secret that is set", ZERO, [*SECRET_KEY, "--set", "key=hex:00000000"], 3, 1, BEQ)
    yield same("what stands before a secret", ZERO, ["counter", "--secret", "key"], stop="Break")
    yield same("what stands behind a secret", ZERO, ["key", "--secret", "counter"])
    yield differs("a secret table", ZERO, ["table", "--secret", "table"], 3, 1, BEQ)
    yield differs("a secret address", [lw(11, 0, 10), lw(12, 0, 11), RETURN], SECRET_KEY, 3, 1, "lw x12, 0(x11)")
    yield differs("a secret divisor", [lw(12, 0, 10), register_word(1, 12, 11, 5, 11), RETURN], SECRET_KEY, 3, 1, "divu x11, x11, x12")


def registers():
    """Each register at the start, by a branch on whether it is 0."""
    known = {0: "Break", 1: "Return", 2: "Return", 3: "Return", 10: "Return", 11: "Break"}
    for register in range(32):
        code, text = [bne(register, 0, 8), EBREAK, RETURN], f"bne x{register}, x0, 8"
        if register in known:
            yield same(f"x{register} is known", code, ["5", "0"], stop=known[register])
        else:
            yield differs(f"x{register} is not known", code, ["5", "0"], 1, 0, text)
    yield differs("an argument that is any word", [bne(11, 0, 8), EBREAK, RETURN], ["5", "?"], 1, 0, "bne x11, x0, 8")
    yield differs("no such argument", [bne(11, 0, 8), EBREAK, RETURN], ["5"], 1, 0, "bne x11, x0, 8")
    yield differs("no global pointer", [bne(3, 0, 8), EBREAK, RETURN], [], 1, 0, "bne x3, x0, 8", global_pointer=False)


def pushed():
    """Arguments on the stack: the ninth is at sp."""
    first = [str(number) for number in range(1, 9)]
    for offset, number in ((0, 9), (4, 10), (8, 11)):
        code = [lw(11, offset, 2), addi(12, 0, number), beq(11, 12, 8), EBREAK, RETURN]
        yield same(f"argument {number}", code, [*first, "9", "0xa", "11"])
    ninth = [lw(11, 0, 2), addi(12, 0, 9), beq(11, 12, 8), EBREAK, RETURN]
    yield differs("argument 9 is any word", ninth, [*first, "?"], 4, 2, "beq x11, x12, 8")
    yield differs("behind the arguments nothing is known", [lw(11, 4, 2), *ninth[1:]], [*first, "9"], 4, 2, "beq x11, x12, 8")
    yield differs("below the arguments nothing is known", [lw(11, -4, 2), *ninth[1:]], [*first, "9"], 4, 2, "beq x11, x12, 8")
    yield same("an address on the stack", [lw(10, 0, 2), *ZERO], [*first, "key+4"])


def bits():
    """Of the byte nothing is known but that the bits above it are 0."""
    yield differs("a byte", byte_then(), SECRET_KEY, 3, 1, BEQ)
    yield same("the bits above a byte", byte_then(srli(11, 11, 8)), SECRET_KEY)
    yield differs("a carry out of unknown bits", byte_then(addi(11, 11, 1), srli(11, 11, 8)), SECRET_KEY, 5, 3, BEQ)
    yield same("above that carry", byte_then(addi(11, 11, 1), srli(11, 11, 9)), SECRET_KEY)
    borrow = register_word(0x20, 11, 0, 0, 11)
    yield differs("a borrow from unknown bits", byte_then(borrow, srli(11, 11, 8)), SECRET_KEY, 5, 3, BEQ)
    yield same("bits that were shifted in", byte_then(slli(11, 11, 4), andi(11, 11, 15)), SECRET_KEY)
    yield differs("a bit that was shifted", byte_then(slli(11, 11, 4), andi(11, 11, 16)), SECRET_KEY, 5, 3, BEQ)
    yield same("a bit that is 1", unless_zero(ori(11, 11, 1)), SECRET_KEY)
    yield differs("no bit that is 1", unless_zero(ori(11, 11, 0)), SECRET_KEY, 4, 2, BEQ)
    yield same("less than any byte is not", unless_zero(sltiu(11, 11, 256)), SECRET_KEY)
    yield differs("less than some bytes are", unless_zero(sltiu(11, 11, 255)), SECRET_KEY, 4, 2, BEQ)
    bgeu = [lbu(12, 0, 10), branch_word(8, 11, 12, 7), RETURN, EBREAK]
    yield same("a branch that known bits decide", bgeu, ["key", "256", "--secret", "key"])
    yield differs("a branch that they do not", bgeu, ["key", "255", "--secret", "key"], 3, 1, "bgeu x12, x11, 8")
    for name, funct7, funct3 in (("xor", 0, 4), ("sub", 0x20, 0), ("slt", 0, 2), ("sltu", 0, 3)):
        yield same(f"{name} of a register with itself", byte_then(register_word(funct7, 11, 11, funct3, 11)), SECRET_KEY)
    add = register_word(0, 11, 11, 0, 11)
    yield differs("add of a register with itself", byte_then(add), SECRET_KEY, 4, 2, BEQ)


def observers():
    """What is seen by a flag alone."""
    shift, product = register_word(0, 12, 11, 1, 11), register_word(1, 12, 11, 0, 11)
    for word, flag, text in ((shift, ["--shifts"], "sll x11, x11, x12"), (product, ["--profile", "2"], "mul x11, x11, x12")):
        code = [lw(12, 0, 10), word, RETURN]
        yield same(f"{text} is not seen", code, SECRET_KEY)
        yield differs(f"{text} is seen", code, [*SECRET_KEY, *flag], 3, 1, text)


def places():
    """Where it is by the symbols, and the calls that lead there."""
    branch = [beq(10, 0, 8), RETURN, RETURN]
    calls = [addi(5, 1, 0), jal(1, 8), jalr(0, 5), addi(6, 1, 0), jal(1, 8), jalr(0, 6), *branch]
    functions = {"f": 3, "g": 3, "local": 3}
    chain = ", called from g+0x4, called from f+0x4"
    yield differs("a call in a call", calls, ["?"], 5, 6, "beq x10, x0, 8", "in local+0x0" + chain, functions=functions)
    functions = {"f": 3, "g": 3}
    yield differs("in no function", calls, ["?"], 5, 6, "beq x10, x0, 8", OUTSIDE.format(0x10018) + chain, functions=functions)
    by_table, chain = [addi(5, 1, 0), jalr(1, 11), jalr(0, 5), *branch], ", called from f+0x4"
    yield differs("a call by a register", by_table, ["?", "g"], 3, 3, "beq x10, x0, 8", "in g+0x0" + chain, functions=functions)
    after = [addi(5, 1, 0), jal(1, 20), beq(10, 0, 8), jalr(0, 5), jalr(0, 5), jalr(0, 5), RETURN]
    yield differs("behind a call", after, ["?"], 4, 2, "beq x10, x0, 8", "in f+0x8", functions={"f": 6, "g": 1})
    yield differs("a jump is no call", [jal(0, 4), *branch], ["?"], 2, 1, "beq x10, x0, 8", "in g+0x0", functions={"f": 1, "g": 3})
    deep = [beq(10, 0, 12), addi(10, 10, -1), jal(1, -8), beq(11, 0, 8), RETURN, RETURN]
    yield differs("three calls", deep, ["3", "?"], 11, 3, BEQ, "in f+0xc" + 3 * ", called from f+0x8")
    yield differs("more calls than are named", deep, ["70", "?"], 212, 3, BEQ, "in f+0xc" + 64 * ", called from f+0x8")


GROUPS = (returns, stores, loads, secrets, registers, pushed, bits, observers, places)


def cases():
    for group in GROUPS:
        yield from group()
