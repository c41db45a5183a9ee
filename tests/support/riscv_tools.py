"""What is there of tools for RISC-V: assemblers, a C compiler and an emulator of Linux programs, and what they make of functions."""

import collections
import os
import shutil
import struct
import subprocess

from calls import ARENA, ROM
from cases import TOP
from functions import TAIL

GCC, GXX, GAS, LD = (f"riscv64-unknown-elf-{tool}" for tool in ("gcc", "g++", "as", "ld"))
LLVM, QEMU, DUMP = "llvm-mc", "qemu-riscv32", "riscv64-unknown-elf-objdump"
TEXTS = os.path.join(TOP, "tests", "linked_texts")
TARGET = ["-march=rv32im", "-mabi=ilp32"]
FREE = ["-ffreestanding", "-fno-builtin", "-nostdlib", "-nostartfiles", "-static", "-mno-relax", "-Wl,--no-relax", "-Wl,--no-warn-rwx-segments"]


def is_there(*tools):
    return all(shutil.which(tool) for tool in tools)


def made(command, folder):
    """Runs a tool: what it said where it failed, else nothing."""
    done = subprocess.run(command, cwd=folder, capture_output=True, text=True, timeout=600)
    return "" if done.returncode == 0 and not done.stderr else f"{' '.join(command)}: {done.stderr or done.returncode}"


def output_of(command, folder):
    done = subprocess.run(command, cwd=folder, capture_output=True, text=True, timeout=100)
    return done.stdout if done.returncode == 0 else f"status {done.returncode}"


def sections_of(path):
    """The sections of an ELF file of 32 bits: the bytes of each by its name."""
    with open(path, "rb") as file:
        data = file.read()
    table, size, count, names = *struct.unpack_from("<I", data, 32), *struct.unpack_from("<HHH", data, 46)
    headers = [struct.unpack_from("<10I", data, table + size * number) for number in range(count)]
    return {text_at(data, headers[names][4] + header[0]): data[header[4] : header[4] + header[5]] for header in headers}


def text_at(data, start):
    return data[start : data.index(b"\0", start)].decode()


def section_of(path, wanted):
    """The bytes of a section, None where there is none."""
    return sections_of(path).get(wanted)


Symbol = collections.namedtuple("Symbol", "name value size")
Relocation = collections.namedtuple("Relocation", "offset kind symbol addend")
R_RISCV_JAL = 17


def symbols_of(path):
    """The symbols of an ELF file."""
    sections = sections_of(path)
    rows = struct.iter_unpack("<IIIBBH", sections[".symtab"])
    return [Symbol(text_at(sections[".strtab"], name), value, size) for name, value, size, *_ in rows]


def relocations_of(path, section):
    """What is left for a linker in a section of an object."""
    names = [symbol.name for symbol in symbols_of(path)]
    rows = struct.iter_unpack("<IIi", section_of(path, f".rela{section}") or b"")
    return [Relocation(offset, info & 0xFF, names[info >> 8], addend) for offset, info, addend in rows]


def words_of(data):
    """The words of a section's bytes; none of one that is not there."""
    return list(struct.unpack(f"<{len(data) // 4}I", data)) if data else []


def without_jump(words, function):
    """The words of a function without how far its jump to the shared tail goes, which an assembler may leave as it likes."""
    return [*words[:-1], words[-1] & 0xFFF] if function.shared and words else words


def problems_of_object(path, function):
    """What is wrong with what an assembler made of a function: the bytes of its words, and of the tail's, and the jump there, which
    is left for the linker."""
    section, problems, words = f".text.{function.name}", [], function.words()
    own, tail = words[: function.count], words[function.count :]
    if without_jump(words_of(section_of(path, section)), function) != without_jump(own, function):
        problems.append("other bytes")
    if words_of(section_of(path, f".text.{TAIL}")) != tail:
        problems.append("other bytes in the tail")
    going = [found for found in relocations_of(path, section) if found.symbol == TAIL]
    wanted = [Relocation(4 * len(own) - 4, R_RISCV_JAL, TAIL, function.entry)] if function.shared else []
    return problems + ([] if going == wanted else [f"it goes on by {going}, and not {wanted}"])


def problems_of_linked(path, function, folder):
    """What is wrong with what a linker makes of an object of a function alone: all its words, and the tail's behind them."""
    told = made([LD, "-m", "elf32lriscv", "--fatal-warnings", "-e", function.name, path, "-o", f"{path}.elf"], folder)
    if told:
        return [told]
    same = words_of(section_of(os.path.join(folder, f"{path}.elf"), ".text")) == function.words()
    return [] if same else ["other bytes, linked"]


def assembled(tool, source, target, folder):
    if tool == GAS:
        return made([GAS, *TARGET, "--fatal-warnings", source, "-o", target], folder)
    return made([LLVM, "-triple=riscv32", "-mattr=+m", "-filetype=obj", "--fatal-warnings", source, "-o", target], folder)


def harness(function, assemblers, call, folder, target):
    """Links the harness with texts, of which one has the function, for calls of the size of one: what a tool said where it failed."""
    defines = [f"-DFUNCTION={function.name}", f"-DROOM={function.room}", f"-DARENA_BYTES={len(call.arena)}", f"-DROM_BYTES={len(call.rom)}"]
    places = [f"-Wl,--section-start=.arena={ARENA:#x}", f"-Wl,--section-start=.rom={ROM:#x}"]
    texts = [os.path.join(TEXTS, name) for name in ("harness.c", "enter.S")]
    command = [GCC, *TARGET, "-O1", "-Wall", *FREE, *defines, *places, "-I", TEXTS, *texts, *assemblers, "-o", target]
    return made(command, folder)


def on_qemu(call, folder, target, calls=1):
    """Makes a call by the harness: the exit status, and registers, arena and ROM after it; -11 where it was stopped."""
    given = struct.pack("<32I", calls, *call.registers[1:]) + call.arena + call.rom
    done = subprocess.run([QEMU, target], input=given, cwd=folder, capture_output=True, timeout=100)
    if done.returncode or len(done.stdout) != len(given):
        return done.returncode or 1, None, None, None
    registers = list(struct.unpack_from("<32I", done.stdout))
    registers[1] = call.registers[1]
    return 0, registers, bytearray(done.stdout[128 : 128 + len(call.arena)]), bytearray(done.stdout[128 + len(call.arena) :])


