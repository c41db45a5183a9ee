"""What a function of an executable shows, by the machine of rv_machine.py: a loader apart from the one that is tested, for files that
are sound.
"""

import collections
import functools
import struct

from compressed import EBREAK, expanded
from elf_files import PF_W, PF_X, PT_LOAD, SHT_SYMTAB, STB_LOCAL, STT_FUNC, SYMBOL
from rv_machine import MASK, Machine, Part, Stopped

STACK_END, RETURN, STACK = 0xFFFFFFF0, 0xFFFFFFF8, 65_536
EF_RISCV_RVC, ECALL = 1, 0x00000073

Named = collections.namedtuple("Named", "value size kind")


class Executable:
    """The segments of a file, and its symbols by their names."""

    def __init__(self, data):
        self.data = data
        self.segments = list(self.headers(28, 44, 32, PT_LOAD, 0))
        self.names = {}
        for table in self.headers(32, 48, 40, SHT_SYMTAB, 1):
            strings = struct.unpack_from("<10I", data, struct.unpack_from("<I", data, 32)[0] + 40 * table[6])
            self.add_names(table, strings[4])

    def headers(self, place_at, count_at, size, kind, field):
        """The headers of one kind in a table, which the file header has the place and the count of."""
        place, count = struct.unpack_from("<I", self.data, place_at)[0], struct.unpack_from("<H", self.data, count_at)[0]
        for k in range(count):
            header = struct.unpack_from(f"<{size // 4}I", self.data, place + size * k)
            if header[field] == kind:
                yield header

    def add_names(self, table, strings):
        """The names of a symbol table: one that is not local goes before one that is."""
        for at in range(table[4], table[4] + table[5], SYMBOL):
            name, value, size, info, _, section = struct.unpack_from("<IIIBBH", self.data, at)
            text = self.data[strings + name : self.data.index(b"\0", strings + name)].decode()
            if section and info % 16 <= STT_FUNC and (text not in self.names or info // 16 != STB_LOCAL):
                self.names[text] = Named(value, size, info % 16)

    def alignment(self):
        """What addresses of instructions are multiples of: 2 where the file's flags say that some have 16 bits."""
        return 2 if struct.unpack_from("<I", self.data, 36)[0] & EF_RISCV_RVC else 4

    def parts(self):
        """The memory: of each segment what the file has, and zeros behind it."""
        for _, offset, address, _, in_file, size, flags, _ in self.segments:
            held = bytearray(self.data[offset : offset + in_file] + bytes(size - in_file))
            yield Part(address, held, bool(flags & PF_W) and not flags & PF_X)

    def code(self):
        """What the file has of the segments that can be executed: where each begins, and its bytes."""
        for _, offset, address, _, in_file, _, flags, _ in self.segments:
            if flags & PF_X:
                yield address, self.data[offset : offset + in_file]

    def word_of(self, argument):
        """What an argument of `factc elf leak` is."""
        if argument == "?":
            return 0
        if argument[0].isdigit():
            return int(argument, 0)
        name, _, offset = argument.partition("+")
        return self.names[name].value + int(offset or "0", 0) & MASK


@functools.cache
def is_instruction(word):
    """Whether a word is an instruction of RV32IM, by the manual's listings."""
    opcode, funct3, funct7 = word & 0x7F, word >> 12 & 7, word >> 25
    if opcode == 0x73:
        return word in (ECALL, EBREAK)
    if opcode == 0x13 and funct3 in (1, 5):
        return funct7 == 0 or (funct3, funct7) == (5, 0x20)
    if opcode == 0x33:
        return funct7 in (0, 1) or funct7 == 0x20 and funct3 in (0, 5)
    allowed = {0x37: range(8), 0x17: range(8), 0x6F: range(8), 0x13: range(8), 0x67: (0,), 0x0F: (0,), 0x23: range(3)}
    return funct3 in {**allowed, 0x63: (0, 1, 4, 5, 6, 7), 0x03: (0, 1, 2, 4, 5)}.get(opcode, ())


class ElfMachine(Machine):
    """The machine on code in several places, each with where it begins and its bytes, with all of RV32IM and, where addresses are
    multiples of 2, the 16-bit instructions."""

    def __init__(self, code, alignment, registers, parts, profile=1):
        super().__init__([], 0, registers, parts, profile)
        self.code, self.alignment = list(code), alignment

    def code_at(self, size):
        """The number that so many bytes of code at pc are."""
        for begin, held in self.code:
            if begin <= self.pc and self.pc + size <= begin + len(held):
                return int.from_bytes(held[self.pc - begin : self.pc - begin + size], "little")
        raise Stopped(f"no code at pc {self.pc:08x}", "AccessFault")

    def fetched(self):
        """The word at pc, or that of the 16-bit instruction there; 0, which is none, where there is no instruction."""
        if self.pc % self.alignment:
            raise Stopped(f"misaligned pc {self.pc:08x}", "Misaligned")
        self.length = 4
        if self.alignment == 4 or self.code_at(2) % 4 == 3:
            return self.code_at(4)
        self.length = 2
        return expanded(self.code_at(2)) or 0

    def done(self, word, opcode, funct3, a, b):
        if not is_instruction(word):
            raise Stopped(f"no instruction {word:08x} at pc {self.pc:08x}", "Illegal")
        if opcode == 0x73:
            raise Stopped(f"the end at pc {self.pc:08x}", "Ecall" if word == ECALL else "Break")
        if opcode == 0x17:
            return self.pc + (word & 0xFFFFF000), self.pc + self.length
        if opcode == 0x0F:
            return None, self.pc + self.length
        return super().done(word, opcode, funct3, a, b)

    def run(self, back, steps):
        """Runs until it comes to an address, or as many steps as are allowed: the name of the stop."""
        try:
            while self.pc != back and steps:
                self.step()
                steps -= 1
        except Stopped as stopped:
            return stopped.stop
        return "Return" if self.pc == back else "Budget"

    def lines(self):
        """The lines of what an observer has seen, as `factc elf leak` prints them."""
        forms = {"pc": "pc {:08x}", "load": "load {:08x} {}", "store": "store {:08x} {}"}
        return [forms.get(kind, kind + " {:08x} {:08x}").format(*shown) for kind, *shown in self.seen]


def put(parts, address, data):
    for part in parts:
        if part.base <= address < part.base + len(part.data):
            at = address - part.base
            part.data[at : at + len(data)] = data


def machine_of(executable, function, arguments, settings, profile):
    """The machine before the function's first step. `settings` are the bytes of objects by their names."""
    words = [executable.word_of(argument) for argument in arguments]
    pushed = struct.pack(f"<{len(words[8:])}I", *words[8:])
    top = STACK_END - (len(pushed) + 15) // 16 * 16
    registers = [0] * 32
    registers[1], registers[2] = RETURN, top
    registers[3] = executable.names["__global_pointer$"].value if "__global_pointer$" in executable.names else 0
    registers[10 : 10 + len(words[:8])] = words[:8]
    parts = [*executable.parts(), Part(STACK_END - STACK, bytearray(STACK), True)]
    for name, data in settings.items():
        put(parts, executable.names[name].value, data)
    put(parts, top, pushed)
    machine = ElfMachine(executable.code(), executable.alignment(), registers, parts, profile)
    machine.pc = executable.names[function].value
    return machine


def listing(data, function, arguments, settings, profile=1, steps=1_000_000):
    """The lines that `factc elf leak` has of a run."""
    machine = machine_of(Executable(data), function, arguments, settings, profile)
    stop = machine.run(RETURN, steps)
    return [*machine.lines(), f"stop {stop}"]
