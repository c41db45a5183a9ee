"""The programs of compressed_programs.py on an emulator that others wrote: as programs of Linux, which set all registers, call a
function, and write what registers, data and stack hold behind it.
"""

import os
import struct
import subprocess

from compressed import addi, jump_word
from compressed_programs import CODE, DATA, DATA_BYTES, EF_RISCV_RVC, GLOBAL_POINTER, TABLE, TABLE_BYTES
from elf_files import HEADER, PF_R, PF_W, PF_X, PROGRAM_HEADER, Elf, Segment
from elf_machine import ElfMachine
from machine_code import store_word
from rv_machine import Part

QEMU = "qemu-riscv32"
START, SAVED, STACK, STACK_BYTES = 0x22000, 0x23000, 0x24000, 0x2000
RA, SP, GP, TP = 1, 2, 3, 4
WRITE, EXIT, ECALL = 64, 93, 0x00000073
REGISTER_BYTES, PAGE, ENTRY_AT = 4 * 32, 0x1000, 24


def number_words(register, number):
    """LUI and ADDI for a number."""
    low = (number & 0xFFF ^ 0x800) - 0x800
    return [(number - low) & 0xFFFFF000 | register << 7 | 0x37, addi(register, register, low)]


def written_words(address, count):
    """Writes bytes to standard output."""
    return [*number_words(10, 1), *number_words(11, address), *number_words(12, count), addi(17, 0, WRITE), ECALL]


def start_words(registers, function):
    """Code that calls a function with these registers, writes what there is behind it, and ends."""
    numbers = [word for register in range(1, 32) for word in number_words(register, registers[register])]
    jump = jump_word(function - (START + 4 * len(numbers)), 0)
    saved = [store_word(4 * register, register, TP, 2) for register in range(1, 32)]
    written = [*written_words(SAVED, REGISTER_BYTES), *written_words(DATA, DATA_BYTES), *written_words(STACK, STACK_BYTES)]
    return [*numbers, jump, *saved, *written, addi(10, 0, 0), addi(17, 0, EXIT), ECALL]


def back_of():
    """Where the function comes back to."""
    return START + 4 * (2 * 31 + 1)


def registers_of(chance):
    """Registers for a call: some numbers, and what a function is promised."""
    registers = [0, *(chance.choice((chance.randrange(8), chance.randrange(1 << 32))) for _ in range(31))]
    registers[RA], registers[SP], registers[GP], registers[TP] = back_of(), STACK + STACK_BYTES, GLOBAL_POINTER, SAVED
    registers[10:12] = DATA, TABLE
    return registers


def linux_program(elf, registers, function):
    """The program as one segment, which has the code that calls the function too. It begins in a page before the program, as far behind
    that page's first byte as the file has headers, since an emulator loads whole pages of a file."""
    start = start_words(registers, function)
    memory = bytearray(STACK + STACK_BYTES - CODE)
    for segment in [*elf.segments, Segment(START, struct.pack(f"<{len(start)}I", *start))]:
        memory[segment.address - CODE : segment.address - CODE + len(segment.bytes)] = segment.bytes
    before = PAGE - HEADER - PROGRAM_HEADER
    whole = Segment(CODE - before, bytes(before) + memory, flags=PF_R | PF_W | PF_X)
    data = bytearray(Elf([whole], [], EF_RISCV_RVC).bytes())
    struct.pack_into("<I", data, ENTRY_AT, START)
    return data


def on_qemu(elf, registers, function, path):
    """Registers, data and stack behind a function on the emulator, None where it did not come back."""
    with open(path, "wb") as file:
        file.write(linux_program(elf, registers, function))
    os.chmod(path, 0o700)
    done = subprocess.run([QEMU, path], stdin=subprocess.DEVNULL, capture_output=True, timeout=60)
    return done.stdout if done.returncode == 0 else None


def on_machine(elf, registers, function, steps):
    """The same on the machine of elf_machine.py, None where it did not come back."""
    code, table, data = elf.segments
    held = bytearray(data.bytes + bytes(DATA_BYTES - len(data.bytes)))
    stack = bytearray(STACK_BYTES)
    parts = [Part(DATA, held, True), Part(TABLE, bytearray(table.bytes), False), Part(STACK, stack, True)]
    machine = ElfMachine([(CODE, code.bytes)], 2, registers, parts)
    machine.pc = function
    if machine.run(back_of(), steps) != "Return":
        return None
    return struct.pack("<32I", *machine.registers) + held + stack
