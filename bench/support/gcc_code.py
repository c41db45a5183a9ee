"""What a routine costs as gcc compiles it: its source in C with masks in place of branches and choices by a secret, called by C."""

import collections
import os
import re
import shutil
import subprocess

from c_of_source import c_name, c_of_source
from counting import BASE, MEMORY, UNTOUCHED, Counter
from functions import SIZES

GCC, OBJCOPY, NM = (f"riscv64-unknown-elf-{tool}" for tool in ("gcc", "objcopy", "nm"))
FLAGS = ["-march=rv32im", "-mabi=ilp32", "-ffreestanding", "-nostdlib", "-nostartfiles", "-static", "-w", "-Wl,-N", "-Wl,--no-relax"]
STACK = BASE + MEMORY // 2
BACK = BASE + MEMORY
# What gcc calls where it copies or clears.
COPIES = """
#include <stddef.h>
void *memcpy(void *to, const void *from, size_t n) { char *t = to; const char *f = from; while (n--) *t++ = *f++; return to; }
void *memset(void *to, int v, size_t n) { char *t = to; while (n--) *t++ = (char)v; return to; }
"""

Theirs = collections.namedtuple("Theirs", "steps code stack")


def is_there():
    """Whether there is a gcc for RISC-V."""
    return bool(shutil.which(GCC))


def give(words):
    return subprocess.run(words, capture_output=True, check=True, text=True).stdout


def behind(address, beyond, size):
    """The next place so far behind a multiple of 4, as far as elements of a size let it."""
    return (address + 3) // 4 * 4 + (beyond + size - 1) // size * size % 4


def prepared(code, routine, beyond):
    """A machine with this code before a call with the routine's first vector, and where its arrays are."""
    machine, places, free = Counter(code), {}, STACK + 4 * len(routine.signature.parameters)
    for number, (parameter, given) in enumerate(zip(routine.signature.parameters, routine.vectors[0].given)):
        word, size = given[0], SIZES[parameter.kind]
        if parameter.form != "word":
            word = places[number] = behind(free, beyond, size)
            machine.put(word, b"".join(element.to_bytes(size, "little") for element in given))
            free = word + parameter.bytes + 4
        if number < 8:
            machine.registers[10 + number] = word
        else:
            machine.put(STACK + 4 * (number - 8), word.to_bytes(4, "little"))
    machine.registers[1], machine.registers[2] = BACK, STACK
    return machine, places


def right(machine, routine, places):
    """Whether the call gave what the vector says."""
    wanted = list(routine.vectors[0].wanted)
    same = not routine.signature.result or machine.registers[10] == wanted.pop(0)[0]
    for number, elements in zip(routine.changed(), wanted):
        parameter = routine.signature.parameters[number]
        size = SIZES[parameter.kind]
        data = b"".join(element.to_bytes(size, "little") for element in elements)
        same = same and machine.taken(places[number], parameter.bytes) == data
    return same


def called(code, entry, routine, beyond):
    """A machine behind the call, and its steps."""
    machine, places = prepared(code, routine, beyond)
    steps = machine.call(entry, BACK)
    if not right(machine, routine, places):
        raise ValueError(f"{routine.name}: another result than the vector's")
    return machine, steps


def stack_of(machine):
    """How far below the stack pointer a call has written."""
    below = machine.memory[MEMORY // 4 : STACK - BASE]
    return next((len(below) - place for place, byte in enumerate(below) if byte != UNTOUCHED), 0)


def theirs(folder, routine, level):
    """What the function that gcc makes of the source with masks costs."""
    text, export = c_of_source(routine.text, True)
    source, linked, code = (os.path.join(folder, routine.name + end) for end in (".c", ".elf", ".bin"))
    with open(source, "w", encoding="utf-8") as file:
        file.write(text + COPIES)
    name = c_name(export.name)
    give([GCC, *FLAGS, "-fno-tree-loop-distribute-patterns", level, f"-Wl,-Ttext={BASE:#x},-e,{name}", source, "-o", linked])
    give([OBJCOPY, "-O", "binary", linked, code])
    entry = int(re.search(rf"^(\w+) T {name}$", give([NM, linked]), re.M).group(1), 16)
    with open(code, "rb") as file:
        data = file.read()
    machine, steps = called(data + bytes(-len(data) % 4), entry, routine, 0)
    return Theirs(steps, len(data), stack_of(machine))
