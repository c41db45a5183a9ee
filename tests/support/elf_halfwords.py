"""Small executables with instructions of 16 bits, each with what `factc elf certify` has to answer, worked out by hand.

They are laid out as those of elf_programs.py; the file's flags say that instructions may have 16 bits, unless it is said otherwise.
"""

import struct

from compressed import ROWS, addi, written
from elf_files import PF_R, PF_X, STT_FUNC, Segment, Symbol
from elf_programs import CODE, EBREAK, ECALL, RETURN, Case, auipc, beq, certified, elf_of, jal, jalr, lbu
from machine_code import register_word

EF_RISCV_RVC = 1
FORM = {row.name: row for row in ROWS}
RA, SP, SECRET_KEY = 1, 2, ["key", "--secret", "key"]


def half(name, **fields):
    return struct.pack("<H", written(FORM[name], **fields))


def word(number):
    return struct.pack("<I", number)


def number(halfword):
    return struct.pack("<H", halfword)


NOP, BACK = half("C.ADDI", rd=0, imm=0), half("C.JR", rs1=RA)


def elf_with(code, functions=None, flags=EF_RISCV_RVC, address=CODE, more=()):
    """The program of some bytes of code. `functions` has how far behind CODE each function begins; without it, f begins there."""
    elf = elf_of([])
    elf.flags = flags
    elf.segments[0] = Segment(address, code, flags=PF_R | PF_X)
    elf.segments += more
    elf.symbols = [symbol for symbol in elf.symbols if symbol.name != "f"]
    starts = sorted((functions or {"f": 0}).items(), key=lambda start: start[1])
    ends = [at for _, at in starts[1:]] + [max(len(code), starts[-1][1])]
    elf.symbols += [Symbol(name, CODE + at, end - at, STT_FUNC) for (name, at), end in zip(starts, ends)]
    return elf


def same(what, code, request=(), stop="Return", **more):
    """It ends by this stop, whatever the secrets are."""
    return Case(what, elf_with(code, **more).bytes(), ["f", *request], certified(stop), 0 if stop == "Return" else 5)


def differs(what, code, request, entry, at, text, place=None, **more):
    """It may differ at an entry, by the instruction so many bytes behind CODE: its digits and its text, and where it is."""
    printed = f"may differ at {entry}\n{CODE + at:08x} {text}\nin {place or f'f+{at:#x}'}\n"
    return Case(what, elf_with(code, **more).bytes(), ["f", *request], printed, 1)


def places():
    """Where instructions may stand."""
    yield same("an instruction of 16 bits", BACK)
    yield same("two of them", NOP + BACK)
    yield same("an instruction of 32 bits at 2 modulo 4", NOP + word(RETURN))
    yield same("one of 16 bits behind one of 32", word(addi(10, 10, 1)) + BACK)
    yield same("a function at 2 modulo 4", number(0) + BACK, functions={"f": 2})
    yield same("a function at an odd address", NOP + BACK, functions={"f": 1}, stop="Misaligned")
    yield same("a jump to an odd address", half("C.JR", rs1=10) + NOP + BACK, ["f+5"])
    yield same("a call of an odd address", word(addi(5, 1, 0)) + half("C.JALR", rs1=10) + half("C.JR", rs1=5) + BACK, ["f+9"])
    yield same("a jump into the middle of an instruction", half("C.J", imm=4) + word(0x80820337))
    yield same("a branch into its middle", half("C.BEQZ", rs1=10, imm=4) + word(0x80820337) + word(EBREAK), ["0"])


def ends():
    """Where the code ends."""
    yield same("it goes past its code", NOP, stop="AccessFault")
    yield same("an instruction that the segment cuts off", NOP + word(RETURN)[:2], stop="AccessFault")
    yield same("an instruction of which only two bytes are there", word(RETURN)[:2], stop="AccessFault")
    yield same("an instruction of which only three bytes are there", word(RETURN)[:3], stop="AccessFault")
    yield same("one byte", BACK[:1], stop="AccessFault")
    yield same("a last byte that is half an instruction", NOP + BACK[:1], stop="AccessFault")
    yield same("a segment at 2 modulo 4", BACK + word(RETURN), functions={"f": 2}, address=CODE + 2)
    yield same("code from an odd address on", b"\0" + BACK, functions={"f": 2}, address=CODE + 1)
    yield same("a function before such code", b"\0" + BACK, address=CODE + 1, stop="AccessFault")
    rest = Segment(CODE + 4, word(RETURN)[2:] + BACK, flags=PF_R | PF_X)
    yield same("an instruction that lies in two segments", NOP + word(RETURN)[:2], more=[rest], stop="AccessFault")
    rest = Segment(CODE + 2, BACK, flags=PF_R | PF_X)
    yield same("the next segment", NOP, more=[rest])


def flags():
    """Without the flag there are no instructions of 16 bits, and addresses are multiples of 4."""
    yield same("16 bits without the flag", BACK + BACK, flags=0, stop="Illegal")
    yield same("a function at 2 modulo 4 without the flag", NOP + BACK, flags=0, functions={"f": 2}, stop="Misaligned")
    yield same("a jump to 2 modulo 4 without the flag", word(jal(0, 6)) + word(RETURN) + NOP, flags=0, stop="Misaligned")
    yield same("a jump to 2 modulo 4", word(jal(0, 6)) + NOP + word(RETURN))
    yield same("a branch to 2 modulo 4 without the flag", word(beq(0, 0, 6)) + word(RETURN) + NOP, flags=0, stop="Misaligned")
    yield same("a branch to 2 modulo 4", word(beq(0, 0, 6)) + NOP + word(RETURN))
    yield same("a call of 2 modulo 4 without the flag", word(jalr(0, 10)) + word(RETURN), ["f+6"], flags=0, stop="Misaligned")
    yield same("a jump by a register to 2 modulo 4", word(jalr(0, 10)) + NOP + word(RETURN), ["f+6"])
    yield same("words with the flag", word(addi(10, 10, 1)) + word(RETURN))


def stops():
    yield same("C.EBREAK", half("C.EBREAK"), stop="Break")
    yield same("EBREAK at 2 modulo 4", NOP + word(EBREAK), stop="Break")
    yield same("ECALL at 2 modulo 4", NOP + word(ECALL), stop="Ecall")
    yield same("too many steps", half("C.J", imm=0), ["--steps", "1000"], stop="Budget")
    for what, halfword in (
        ("the halfword 0", 0x0000),
        ("C.ADDI4SPN of 0", 0x0010),
        ("C.LUI of 0", 0x6281),
        ("C.ADDI16SP of 0", 0x6101),
        ("C.LWSP to x0", 0x4002),
        ("C.JR by x0", 0x8002),
        ("an amount of 32", 0x1282),
        ("another amount of 32", 0x9401),
        ("C.SUBW", 0x9C01),
        ("C.FLW", 0x6000),
        ("C.FSD", 0xA000),
        ("C.FLWSP", 0x6002),
        ("C.FSDSP", 0xA002),
        ("a reserved row", 0x8000),
    ):
        yield same(what, number(halfword) + BACK, stop="Illegal")
    yield same("the first of an instruction of 48 bits", number(0x001F) + BACK + BACK, stop="Illegal")
    for what, halfword in (
        ("C.NOP with a number", 0x0005),
        ("C.ADDI of 0", 0x0281),
        ("C.LI to x0", 0x4005),
        ("C.LUI to x0", 0x6005),
        ("C.MV to x0", 0x8006),
        ("C.ADD to x0", 0x9006),
        ("C.SLLI by 0", 0x0282),
        ("C.SLLI of x0", 0x0006),
        ("C.SRLI by 0", 0x8001),
    ):
        yield same(f"a hint: {what}", number(halfword) + BACK)


def accesses():
    """Loads and stores, and what is computed of addresses."""
    yield same("C.SW to data", half("C.SW", rs1=10, rs2=11, uimm=28) + BACK, ["key", "0"])
    yield same("C.SW behind data", half("C.SW", rs1=10, rs2=11, uimm=32) + BACK, ["key", "0"], stop="AccessFault")
    yield same("C.SW to a table", half("C.SW", rs1=10, rs2=11, uimm=0) + BACK, ["table", "0"], stop="AccessFault")
    yield same("C.SW to code", half("C.SW", rs1=10, rs2=11, uimm=0) + BACK, ["f", "0"], stop="AccessFault")
    yield same("a misaligned C.LW", half("C.LW", rs1=10, rd=11, uimm=0) + BACK, ["key+2"], stop="Misaligned")
    yield same("code is read", half("C.LW", rs1=10, rd=11, uimm=0) + half("C.BEQZ", rs1=11, imm=4) + BACK + word(EBREAK), ["f"])
    down = half("C.ADDI16SP", imm=-64)
    yield same("C.SWSP to the stack", down + half("C.SWSP", rs2=10, uimm=60) + half("C.ADDI16SP", imm=64) + BACK, ["1"])
    yield same("C.SWSP behind the stack", down + half("C.SWSP", rs2=10, uimm=64) + BACK, ["1"], stop="AccessFault")
    kept = down + half("C.SWSP", rs2=10, uimm=8) + half("C.ADDI4SPN", rd=11, uimm=4) + half("C.LW", rs1=11, rd=12, uimm=4)
    yield same("a word of the stack by two addresses", kept + half("C.BEQZ", rs1=12, imm=4) + BACK + word(EBREAK), ["7"])
    yield same("the last word of the stack", half("C.ADDI", rd=SP, imm=-4) + half("C.SWSP", rs2=10, uimm=0) + BACK, ["1"])
    by_lui = half("C.LUI", rd=11, imm=CODE) + half("C.LW", rs1=11, rd=11, uimm=0)
    yield same("an address by C.LUI", by_lui + half("C.BEQZ", rs1=11, imm=4) + BACK + word(EBREAK))
    # The third byte of the code is 0x97, and its fourth 2; its second is 0.
    relative = NOP + word(auipc(5)) + word(lbu(11, 1, 5))
    yield same("an address by AUIPC at 2 modulo 4", relative + half("C.BEQZ", rs1=11, imm=4) + BACK + word(EBREAK))


def secrets():
    """What is shown, of instructions of either length."""
    load = half("C.LW", rs1=10, rd=11, uimm=0)
    yield differs("a branch", load + half("C.BEQZ", rs1=11, imm=4) + BACK + BACK, SECRET_KEY, 3, 2, "c191 beq x11, x0, 4")
    yield differs("the other branch", load + half("C.BNEZ", rs1=11, imm=4) + BACK + BACK, SECRET_KEY, 3, 2, "e191 bne x11, x0, 4")
    yield differs("a load", load + half("C.LW", rs1=11, rd=12, uimm=64) + BACK, SECRET_KEY, 3, 2, "41b0 lw x12, 64(x11)")
    yield differs("a store", load + half("C.SW", rs1=11, rs2=12, uimm=64) + BACK, SECRET_KEY, 3, 2, "c1b0 sw x12, 64(x11)")
    yield differs("a jump", load + half("C.JR", rs1=11), SECRET_KEY, 3, 2, "8582 jalr x0, 0(x11)")
    yield differs("a call", load + half("C.JALR", rs1=11), SECRET_KEY, 3, 2, "9582 jalr x1, 0(x11)")
    shift = load + half("C.SLLI", rd=11, uimm=31) + half("C.SRLI", rd=11, uimm=31) + half("C.ANDI", rd=11, imm=-2)
    yield same("bits that are known", shift + half("C.BEQZ", rs1=11, imm=4) + BACK + BACK, SECRET_KEY)
    for name in ("C.XOR", "C.SUB"):
        yield same(f"{name} of a register with itself", load + half(name, rd=11, rs2=11) + half("C.BEQZ", rs1=11, imm=4) + BACK + BACK, SECRET_KEY)
    division = register_word(1, 11, 12, 5, 12)
    yield differs("a division at 2 modulo 4", load + word(division) + BACK, SECRET_KEY, 3, 2, f"{division:08x} divu x12, x12, x11")
    middle = half("C.LW", rs1=10, rd=15, uimm=0) + half("C.J", imm=4) + word(0xC391_0337) + BACK + BACK
    yield differs("in the middle of an instruction", middle, SECRET_KEY, 4, 6, "c391 beq x15, x0, 4")


def calls():
    """The return address is behind the call, 2 bytes or 4."""
    kept, branch = half("C.MV", rd=5, rs2=RA), half("C.BEQZ", rs1=10, imm=4) + BACK + BACK
    back, text = half("C.JR", rs1=5), "c111 beq x10, x0, 4"
    for what, call in (
        ("C.JAL", half("C.JAL", imm=4)),
        ("C.JALR", half("C.JALR", rs1=11)),
        ("JAL at 2 modulo 4", word(jal(1, 6))),
        ("JALR at 2 modulo 4", word(jalr(1, 11))),
    ):
        g = 2 + len(call) + 2
        functions, code = {"f": 0, "g": g}, kept + call + back + branch
        yield same(f"{what} comes back", code, ["0", "g"], functions=functions)
        yield differs(what, code, ["?", "g"], 3, g, text, "g+0x0, called from f+0x2", functions=functions)
    after = kept + half("C.JAL", imm=8) + half("C.BEQZ", rs1=10, imm=4) + back + back + BACK
    yield differs("behind a call", after, ["?"], 4, 4, text, "f+0x4", functions={"f": 0, "g": 10})
    yield differs("C.JR is no call", half("C.JR", rs1=11) + branch, ["?", "g"], 2, 2, text, "g+0x0", functions={"f": 0, "g": 2})
    yield differs("C.J is no call", half("C.J", imm=2) + branch, ["?"], 2, 2, text, "g+0x0", functions={"f": 0, "g": 2})


GROUPS = (places, ends, flags, stops, accesses, secrets, calls)


def cases():
    for group in GROUPS:
        yield from group()
