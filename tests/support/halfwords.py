"""What others make of each halfword as a 16-bit instruction of RV32: a disassembler of LLVM's and an assembler of GNU's.

`halfwords_by_llvm.xz` beside has a line for each halfword from 0 on, as `llvm-mc` of LLVM 14.0.6 prints it for `-triple=riscv32
-mattr=+m,+c`, without aliases and with numbered registers; an empty line where it knows no instruction.
"""

import lzma
import os
import re
import subprocess

COUNT = 1 << 16
STORED = os.path.join(os.path.dirname(os.path.abspath(__file__)), "halfwords_by_llvm.xz")
DECODED = re.compile(r"\t(c\.\S+)\t?(.*?)\s*# encoding: \[0x(..),0x(..)\]")

# The instruction of 32 bits that each of 16 bits means, as the RISC-V manual says below its description: the operands of the second
# stand in the first as LLVM prints them. LLVM has names of its own for shifts by 0, which are hints.
MEANINGS = {
    "c.addi4spn": "addi {0}, {1}, {2}",
    "c.lw": "lw {0}, {1}",
    "c.sw": "sw {0}, {1}",
    "c.nop": "addi x0, x0, {0}",
    "c.addi": "addi {0}, {0}, {1}",
    "c.jal": "jal x1, {0}",
    "c.li": "addi {0}, x0, {1}",
    "c.addi16sp": "addi {0}, {0}, {1}",
    "c.lui": "lui {0}, {1}",
    "c.srli": "srli {0}, {0}, {1}",
    "c.srli64": "srli {0}, {0}, 0",
    "c.srai": "srai {0}, {0}, {1}",
    "c.srai64": "srai {0}, {0}, 0",
    "c.andi": "andi {0}, {0}, {1}",
    "c.sub": "sub {0}, {0}, {1}",
    "c.xor": "xor {0}, {0}, {1}",
    "c.or": "or {0}, {0}, {1}",
    "c.and": "and {0}, {0}, {1}",
    "c.j": "jal x0, {0}",
    "c.beqz": "beq {0}, x0, {1}",
    "c.bnez": "bne {0}, x0, {1}",
    "c.slli": "slli {0}, {0}, {1}",
    "c.slli64": "slli {0}, {0}, 0",
    "c.lwsp": "lw {0}, {1}",
    "c.jr": "jalr x0, 0({0})",
    "c.mv": "add {0}, x0, {1}",
    "c.ebreak": "ebreak",
    "c.jalr": "jalr x1, 0({0})",
    "c.add": "add {0}, {0}, {1}",
    "c.swsp": "sw {0}, {1}",
}

# A halfword for each row, as gas of binutils 2.40 makes it for -march=rv32imc: the text that it read, and what it means.
ASSEMBLED = """
0808  c.addi4spn x10, x2, 16   addi x10, x2, 16
5434  c.lw x13, 104(x8)        lw x13, 104(x8)
c3e4  c.sw x9, 68(x15)         sw x9, 68(x15)
0001  c.nop                    addi x0, x0, 0
15e5  c.addi x11, -7           addi x11, x11, -7
354d  c.jal .-350              jal x1, -350
5c01  c.li x24, -32            addi x24, x0, -32
7145  c.addi16sp x2, -464      addi x2, x2, -464
7b8d  c.lui x23, 0xfffe3       lui x23, 0xfffe3
80b5  c.srli x9, 13            srli x9, x9, 13
877d  c.srai x14, 31           srai x14, x14, 31
9a35  c.andi x12, -19          andi x12, x12, -19
8c1d  c.sub x8, x15            sub x8, x8, x15
8d2d  c.xor x10, x11           xor x10, x10, x11
8ec5  c.or x13, x9             or x13, x13, x9
8f71  c.and x14, x12           and x14, x14, x12
ad45  c.j .+1712               jal x0, 1712
d1b1  c.beqz x11, .-188        beq x11, x0, -188
e275  c.bnez x12, .+228        bne x12, x0, 228
08d2  c.slli x17, 20           slli x17, x17, 20
59ba  c.lwsp x19, 172(x2)      lw x19, 172(x2)
8f82  c.jr x31                 jalr x0, 0(x31)
8a56  c.mv x20, x21            add x20, x0, x21
9002  c.ebreak                 ebreak
9302  c.jalr x6                jalr x1, 0(x6)
9dc2  c.add x27, x16           add x27, x27, x16
d796  c.swsp x5, 236(x2)       sw x5, 236(x2)
"""


def assembled():
    """Of each row: its halfword, the text that was assembled, and the text of what it means."""
    for line in ASSEMBLED.strip().splitlines():
        halfword, text, meaning = re.split(r" {2,}", line)
        yield int(halfword, 16), text, meaning


def stored():
    """The lines that were stored."""
    with lzma.open(STORED, "rt") as file:
        return file.read().split("\n")[:COUNT]


def printed_by(program):
    """The lines that a disassembler of LLVM's prints now. A halfword that is the first of 32 bits is none of them."""
    asked = "\n".join(f"[0x{halfword & 0xFF:02x} 0x{halfword >> 8:02x}]" for halfword in range(COUNT))
    command = [program, "--disassemble", "-triple=riscv32", "-mattr=+m,+c", "-M", "no-aliases", "-M", "numeric", "--show-encoding"]
    done = subprocess.run(command, input=asked, capture_output=True, text=True, timeout=300)
    lines = [""] * COUNT
    for name, operands, low, high in DECODED.findall(done.stdout):
        lines[int(high + low, 16)] = f"{name} {operands}".strip()
    return lines


def is_reserved(name, operands):
    """Whether the manual reserves what LLVM prints so, for RV32: amounts of six bits, LUI of 0, and the halfword 0."""
    amount = name in ("c.slli", "c.srli", "c.srai") and int(operands[1]) >= 32
    return amount or name == "c.lui" and operands[1] == "0" or name == "c.unimp"


def meaning_of(line):
    """The text of the instruction that a line of LLVM's means, `none` where it is empty or what it has is reserved."""
    name, _, rest = line.partition(" ")
    operands = rest.split(", ")
    if not line or is_reserved(name, operands):
        return "none"
    if name == "c.lui":
        operands[1] = f"0x{int(operands[1]) & 0xFFFFF:05x}"
    if line == "c.nop":
        operands = ["0"]
    return MEANINGS[name].format(*operands)
