"""Random programs of 16-bit and 32-bit instructions: functions that compute, load and store in data, a table and their frames, branch
both ways, loop a few times, call one another, and jump into the middle of instructions.

A function takes the address of `data` in a0, that of `table` in a1, and numbers in a2 to a7. It keeps s0 and s1 for the two addresses,
s2 to s11 for counters, two for each function, and tp for nothing, and comes back to its caller unless it is one of the few that end otherwise.
"""

import struct

from compressed import ROWS, addi, jump_word, written
from elf_files import PF_R, PF_W, PF_X, SHN_ABS, STT_FUNC, STT_OBJECT, Elf, Segment, Symbol
from machine_code import branch_word, immediate_word, register_word, store_word

CODE, TABLE, DATA = 0x10000, 0x18000, 0x20000
TABLE_BYTES, DATA_BYTES, DATA_IN_FILE = 64, 256, 96
GLOBAL_POINTER = DATA + 0x80
EF_RISCV_RVC = 1

ROW = {row.name: row for row in ROWS}

# Registers that take anything: those that fields of three bits have, and others. The first three of the others are for addresses too.
SHORT = (10, 11, 12, 13, 14, 15)
LONG = (5, 6, 7, 16, 17, 28, 29, 30, 31)
ANY = SHORT + LONG
RA, SP, GP, DATA_AT, TABLE_AT, COUNTERS = 1, 2, 3, 8, 9, range(18, 28)
MOST_FUNCTIONS = 5

JUNK = (0x0000, 0x6101, 0x8002, 0x9C41, 0x2000, 0xFFFF, 0x4002)
ENDS = (0x9002, 0x0000, 0x8002, 0x2000, 0x9C41, 0x1002)
LONG_ENDS = (0x00000073, 0x00100073, 0x0000007F, 0xFFFFFFFF, 0x4000_1033, 0x0000_200F)


class Code:
    """Code that is written from its first byte on."""

    def __init__(self, chance):
        self.chance, self.bytes, self.functions = chance, bytearray(), []

    def here(self):
        return CODE + len(self.bytes)

    def half(self, name, **fields):
        self.bytes += struct.pack("<H", written(ROW[name], **fields))

    def word(self, word):
        self.bytes += struct.pack("<I", word)

    def room(self, size):
        """Room for an instruction that is written when it is known where it goes to."""
        self.bytes += bytes(size)
        return self.here() - size

    def put(self, at, instruction, size):
        self.bytes[at - CODE : at - CODE + size] = instruction.to_bytes(size, "little")

    def branch(self, at, size, to, register):
        """Branches on whether a register is 0, where that is within reach; else it does nothing."""
        offset = to - at
        if size == 4:
            self.put(at, branch_word(offset, register, 0, self.chance.choice((0, 1, 4, 5, 6, 7))), 4)
        elif -256 <= offset < 256:
            name = self.chance.choice(("C.BEQZ", "C.BNEZ"))
            self.put(at, written(ROW[name], rs1=register, imm=offset), 2)
        else:
            self.put(at, written(ROW["C.ADDI"], rd=0, imm=0), 2)


def signed(chance, bits):
    return chance.randrange(-1 << bits - 1, 1 << bits - 1)


def small(code):
    """A computation of 16 bits; now and then a hint, which does nothing."""
    chance = code.chance
    name = chance.choice("C.ADDI C.LI C.LUI C.SRLI C.SRAI C.ANDI C.SUB C.XOR C.OR C.AND C.SLLI C.MV C.ADD C.ADDI4SPN".split())
    short = "rd'" in ROW[name].fields
    rd = chance.choice(SHORT) if short else chance.choice(ANY + (0,))
    rs2 = chance.choice(SHORT) if short else chance.choice(ANY + (SP, DATA_AT))
    number = signed(chance, 6)
    if name == "C.LUI":
        number = (number or 1) << 12
    amount = chance.randrange(1, 256) * 4 if name == "C.ADDI4SPN" else chance.randrange(32)
    code.half(name, rd=rd, rs2=rs2, imm=number, uimm=amount)


def large(code):
    """A computation of 32 bits."""
    chance = code.chance
    rd, rs1, rs2 = chance.choice(ANY + (0,)), chance.choice(ANY + (0,)), chance.choice(ANY)
    kind = chance.randrange(6)
    if chance.randrange(40) == 0:
        code.word(immediate_word(0x0F, chance.randrange(1 << 12), 0, 0, 0))
    elif kind == 0:
        code.word(chance.choice((0x37, 0x17)) | rd << 7 | chance.randrange(1 << 20) << 12)
    elif kind == 1:
        arithmetic = chance.choice((0, 0x400))
        code.word(immediate_word(0x13, chance.randrange(32) | arithmetic, rs1, 5, rd))
    elif kind <= 3:
        code.word(immediate_word(0x13, signed(chance, 12), rs1, chance.choice((0, 2, 3, 4, 6, 7)), rd))
    else:
        funct7 = chance.choice((0, 0x20, 1, 1))
        code.word(register_word(funct7, rs2, rs1, chance.choice((0, 5)) if funct7 == 0x20 else chance.randrange(8), rd))


def accessed(code):
    """A load or store in data or the table, of each size, seldom where it may not be."""
    chance = code.chance
    base, count = chance.choice(((DATA_AT, DATA_BYTES), (DATA_AT, DATA_BYTES), (TABLE_AT, TABLE_BYTES), (GP, DATA_BYTES)))
    if base != GP and chance.randrange(2):
        name = "C.LW" if base == TABLE_AT else chance.choice(("C.LW", "C.SW"))
        offset = chance.randrange(min(count, 128) // 4) * 4
        code.half(name, rd=chance.choice(SHORT), rs1=base, rs2=chance.choice(SHORT), uimm=offset)
        return
    size = chance.randrange(3)
    offset = (chance.randrange(count >> size) << size) + (chance.randrange(100) == 0) - (0x80 if base == GP else 0)
    if base == TABLE_AT and chance.randrange(50) or chance.randrange(2):
        code.word(immediate_word(0x03, offset, base, size + (4 if size < 2 and chance.randrange(2) else 0), chance.choice(ANY + (0,))))
    else:
        code.word(store_word(offset, chance.choice(ANY + (0,)), base, size))


def looked_up(code):
    """A load from where a register says."""
    chance = code.chance
    index, target = chance.choice(SHORT), chance.choice(SHORT)
    code.word(immediate_word(0x13, TABLE_BYTES - 4, index, 7, index))
    code.half("C.ADD", rd=index, rs2=chance.choice((DATA_AT, TABLE_AT)))
    code.half("C.LW", rd=target, rs1=index, uimm=0)


def in_frame(code, frame):
    """A store in the frame below where the return address is kept, and a load."""
    chance = code.chance
    offset = chance.randrange(min(frame - 8, 256) // 4) * 4
    if offset and chance.randrange(2):
        at = chance.choice(SHORT)
        code.half("C.ADDI4SPN", rd=at, uimm=offset)
        code.half("C.SW", rs1=at, rs2=chance.choice(SHORT), uimm=0)
    else:
        code.half("C.SWSP", rs2=chance.choice(ANY), uimm=offset)
    code.half("C.LWSP", rd=chance.choice(ANY), uimm=chance.randrange(min(frame - 8, 256) // 4) * 4)


def skipped(code, frame, depth):
    """Some code that a branch may skip."""
    size = code.chance.choice((2, 4))
    at = code.room(size)
    body(code, frame, depth - 1)
    code.branch(at, size, code.here(), code.chance.choice(SHORT))


def repeated(code, frame, depth):
    """Some code a few times, by a counter of its own, which a branch back counts down."""
    chance, counter = code.chance, COUNTERS[2 * len(code.functions) + depth - 1]
    code.half("C.LI", rd=counter, imm=chance.randrange(1, 5))
    begin = code.here()
    body(code, frame, depth - 1)
    code.half("C.ADDI", rd=counter, imm=-1)
    if begin - code.here() >= -200 and chance.randrange(2):
        code.half("C.MV", rd=15, rs2=counter)
        code.half("C.BNEZ", rs1=15, imm=begin - code.here())
    else:
        code.word(branch_word(begin - code.here(), 0, counter, 1))


def passed_over(code):
    """A jump over what is no code, of which the last bytes may be those of half an instruction."""
    chance = code.chance
    size = chance.choice((2, 4))
    at = code.room(size)
    for _ in range(chance.randrange(1, 4)):
        code.bytes += struct.pack("<H", chance.choice(JUNK))
    offset = code.here() - at
    code.put(at, written(ROW["C.J"], imm=offset) if size == 2 else jump_word(offset, 0), size)


def middle(code):
    """A LUI of which the upper half is an instruction of 16 bits, and a jump or branch to there."""
    chance = code.chance
    inner = Code(chance)
    small(inner)
    name = chance.choice(("C.J", "C.BEQZ", "C.BNEZ"))
    code.half(name, rs1=chance.choice(SHORT), imm=4)
    code.word(int.from_bytes(inner.bytes, "little") << 16 | chance.randrange(16) << 12 | chance.choice(LONG) << 7 | 0x37)


def called(code):
    """A call of a function that was written before, by each of the instructions that call."""
    chance = code.chance
    to = chance.choice(code.functions)
    offset, kind = to - code.here(), chance.randrange(4)
    if kind == 0 and offset >= -2048:
        code.half("C.JAL", imm=offset)
    elif kind <= 1:
        code.word(jump_word(offset, RA))
    else:
        at, low = chance.choice(LONG), (offset & 0xFFF ^ 0x800) - 0x800
        code.word((offset - low) & 0xFFFFF000 | at << 7 | 0x17)
        if kind == 2:
            code.word(addi(at, at, low | chance.randrange(2)))
            code.half("C.JALR", rs1=at)
        else:
            code.word(immediate_word(0x67, low | chance.randrange(2), at, 0, RA))


def ended(code):
    """What ends the run: EBREAK, ECALL, or no instruction."""
    chance = code.chance
    code.bytes += struct.pack("<H", chance.choice(ENDS)) if chance.randrange(2) else struct.pack("<I", chance.choice(LONG_ENDS))


def body(code, frame, depth):
    chance = code.chance
    for _ in range(chance.randrange(3, 9)):
        choice = chance.randrange(20)
        if choice < 2 and depth > 0:
            skipped(code, frame, depth)
        elif choice == 2 and depth > 0:
            repeated(code, frame, depth)
        elif choice == 3 and code.functions:
            called(code)
        elif choice == 4:
            in_frame(code, frame)
        else:
            chance.choice((small, small, small, large, large, accessed, accessed, looked_up, middle, passed_over))(code)


def stack_moved(code, by):
    """sp changed by one of the instructions that can."""
    forms = ["C.ADDI16SP"] * (-512 <= by < 512) + ["C.ADDI"] * (-32 <= by < 32) + [None]
    name = code.chance.choice(forms)
    if name is None:
        code.word(addi(SP, SP, by))
    else:
        code.half(name, rd=SP, imm=by)


def function(code, called_by_others):
    """A function, which may call those that were written before."""
    chance = code.chance
    frame = chance.choice((16, 16, 32, 48, 128, 272))
    begin = code.here()
    stack_moved(code, -frame)
    code.word(store_word(frame - 4, RA, SP, 2))
    code.word(addi(DATA_AT, GP, -0x80)) if called_by_others else code.half("C.MV", rd=DATA_AT, rs2=10)
    code.word((TABLE >> 12) << 12 | TABLE_AT << 7 | 0x37)
    for register in LONG[:4]:
        code.half("C.LI", rd=register, imm=signed(chance, 6))
    body(code, frame, 2)
    body(code, frame, 2)
    if chance.randrange(25) == 0:
        ended(code)
    if frame < 256 and chance.randrange(2):
        code.half("C.LWSP", rd=RA, uimm=frame - 4)
    else:
        code.word(immediate_word(0x03, frame - 4, SP, 2, RA))
    stack_moved(code, frame)
    code.half("C.JR", rs1=RA) if chance.randrange(3) else code.word(immediate_word(0x67, 0, RA, 0, 0))
    code.functions.append(begin)


def code_of(chance, count):
    """Code of so many functions."""
    code = Code(chance)
    for k in range(count):
        function(code, k + 1 < count)
    return code


def program(chance, count):
    """An executable with functions f0, f1, .., which may have instructions of 16 bits."""
    code = code_of(chance, count)
    ends = [*code.functions[1:], code.here()]
    symbols = [Symbol(f"f{k}", at, end - at, STT_FUNC) for k, (at, end) in enumerate(zip(code.functions, ends))]
    symbols += [Symbol("table", TABLE, TABLE_BYTES, STT_OBJECT), Symbol("data", DATA, DATA_BYTES, STT_OBJECT)]
    symbols.append(Symbol("__global_pointer$", GLOBAL_POINTER, section=SHN_ABS))
    segments = [
        Segment(CODE, bytes(code.bytes), flags=PF_R | PF_X),
        Segment(TABLE, chance.randbytes(TABLE_BYTES), flags=PF_R),
        Segment(DATA, chance.randbytes(DATA_IN_FILE), DATA_BYTES, PF_R | PF_W),
    ]
    return Elf(segments, symbols, EF_RISCV_RVC)
