"""Calls of a function as a C compiler makes them: registers and memory before, and what they have to be after."""

import random
import re
import struct
import subprocess

from functions import SIZES
from rv_machine import Machine, Part, Stopped

CODE = 0x0001_0000
ARENA = 0x0080_0000
ROM = 0x0100_0000
BELOW = 256  # bytes of the arena below the room of a call, at least
ABOVE = 64  # and above the arguments on the stack
BLOCK = 1_024  # the sizes of arena and ROM are multiples of it
SAVED = (1, 2, 3, 4, 8, 9, *range(18, 28))
CLEARED = (5, 6, 7, *range(11, 18), *range(28, 32))
PARAMETER = re.compile(r"(public|secret)\s+(mut\s+)?(bool|uint8|uint16|uint32)(?:\[(\d+)\])?\s+(\w+)")
EXPORT = re.compile(r"export\s+(?:void|(?:public|secret)\s+(\w+))\s+(\w+)\s*\(([^)]*)\)")


class Parameter:
    """What a source says of a parameter."""

    def __init__(self, label, mutable, kind, length, name):
        self.label, self.kind, self.name = label, kind, name
        self.form = "word" if length is None else "mut" if mutable else "fixed"
        self.length = int(length or 1)

    @property
    def bytes(self):
        return SIZES[self.kind] * self.length

    def meant(self, word):
        """What a raw word or element means."""
        return int(word != 0) if self.kind == "bool" else word & (1 << 8 * SIZES[self.kind]) - 1


class Signature:
    """The name, the parameters and the type of the result of a source's export."""

    def __init__(self, source):
        self.result, self.name, parameters = EXPORT.search(re.sub("//.*", "", source)).groups()
        self.parameters = [Parameter(*found) for found in (match.groups() for match in PARAMETER.finditer(parameters))]

    def as_words(self, arguments):
        """Arguments as the program takes them, within their types."""
        for parameter, argument in zip(self.parameters, arguments):
            elements = [argument] if parameter.form == "word" else argument
            yield ",".join(str(parameter.meant(element)) for element in elements)

    def drawn(self, chance, public=None):
        """Random arguments, raw words among them; public ones are those that are given, where some are."""
        for number, parameter in enumerate(self.parameters):
            if public is not None and parameter.label == "public":
                yield public[number]
            elif parameter.form == "word":
                yield chance.choice((0, 1, 2, 6, 0x100, chance.randrange(2**32), 0xFFFFFFFF))
            else:
                yield [chance.choice((0, 0, 1, 2, 128, chance.randrange(256 ** SIZES[parameter.kind]))) for _ in range(parameter.length)]


def blocks(count):
    """A number of bytes, in whole blocks."""
    return (count + BLOCK - 1) // BLOCK * BLOCK


def cut(elements, size):
    return b"".join((element & (1 << 8 * size) - 1).to_bytes(size, "little") for element in elements)


def outcome(program, source, words):
    """What the source means on arguments: the result, None where there is none, and the arrays that it changes."""
    done = subprocess.run([program, "eval", source, *words], capture_output=True, text=True, timeout=600)
    if done.returncode:
        raise ValueError(f"eval {source} {' '.join(words)}: {done.stderr}")
    returned = re.search(r"^return (\d+)$", done.stdout, re.MULTILINE)
    arrays = {int(number): [int(word) for word in line.split(",")] for number, line in re.findall(r"^array (\d+) (.*)$", done.stdout, re.MULTILINE)}
    return int(returned.group(1)) if returned else None, arrays


class Call:
    """A call: where the stack and the arrays are, what registers hold, and the memory before and after it."""

    def __init__(self, function, signature, arguments, seed=0, contents=0, below=BELOW, beyond=None):
        """`seed` decides the places of the stack and of arrays, `contents` what is left open in registers and around data. Where
        `beyond` is given, each array begins so far behind a multiple of 4, as far as its elements let it."""
        self.function, self.signature, self.arguments = function, signature, arguments
        chance, filler = random.Random(seed), random.Random(contents)
        self.registers = [0] + [filler.randrange(2**32) for _ in range(31)]
        self.sp = ARENA + below + (function.room + 15) // 16 * 16 + 16 * chance.randrange(4)
        self.stack_bytes = 4 * max(0, len(arguments) - 8)
        self.places, self.parts = {}, [(self.sp, self.stack_bytes, False)]
        memory = {True: bytearray(), False: bytearray()}
        place = {True: self.sp + self.stack_bytes + ABOVE, False: ROM}
        for number, parameter in enumerate(signature.parameters):
            if parameter.form != "word":
                changes = parameter.form == "mut"
                size = SIZES[parameter.kind]
                drawn = size * chance.randrange(4 // size + 1)
                after = drawn if beyond is None else (beyond + size - 1) // size * size % 4
                at = (place[changes] + 4 * chance.randrange(1, 4) + 3) // 4 * 4 + after
                self.places[number] = at
                self.parts.append((at, parameter.bytes, changes))
                place[changes] = at + parameter.bytes
        self.arena, self.rom = (bytearray(filler.randbytes(blocks(place[m] + ABOVE - base))) for m, base in ((True, ARENA), (False, ROM)))
        self.put_arguments()

    def memory(self, address):
        return (self.rom, address - ROM) if address >= ROM else (self.arena, address - ARENA)

    def put(self, address, data):
        memory, at = self.memory(address)
        memory[at : at + len(data)] = data

    def put_arguments(self):
        for number, (parameter, argument) in enumerate(zip(self.signature.parameters, self.arguments)):
            word = self.places.get(number, argument)
            if number in self.places:
                self.put(word, cut(argument, SIZES[parameter.kind]))
            if number < 8:
                self.registers[10 + number] = word
            else:
                self.put(self.sp + 4 * (number - 8), struct.pack("<I", word))
        self.registers[2] = self.sp

    def expected(self, returned, arrays):
        """The result and the arena that are to be there after the call."""
        arena = bytearray(self.arena)
        low = self.sp - self.function.room - ARENA
        arena[low : self.sp - ARENA] = bytes(self.function.room)
        for number, elements in arrays.items():
            at = self.places[number] - ARENA
            data = cut(elements, SIZES[self.signature.parameters[number].kind])
            arena[at : at + len(data)] = data
        return returned or 0, arena

    def problems(self, expected, registers, arena, rom):
        """What is wrong with registers and memory after the call."""
        returned, wanted = expected
        wrong = [] if registers[10] == returned else [f"a0 is {registers[10]}, and not {returned}"]
        wrong += [f"x{r} is not as it was" for r in SAVED if registers[r] != self.registers[r]]
        wrong += [f"x{r} is not 0" for r in CLEARED if registers[r]]
        place = next((place for place, (one, other) in enumerate(zip(arena, wanted)) if one != other), None)
        if place is not None:
            wrong.append(f"{self.name_of(ARENA + place)} is {arena[place]}, and not {wanted[place]}")
        return wrong + ([] if rom == self.rom else ["an array that is const has changed"])

    def name_of(self, address):
        for number, at in self.places.items():
            if at <= address < at + self.signature.parameters[number].bytes:
                return f"byte {address - at} of parameter {number}"
        return f"the byte at sp {address - self.sp:+}"

    def on_our_machine(self, words, most_steps, watch=None, start=0):
        """Makes the call on a machine that has the room, the arguments on the stack and the arrays for its data, and nothing else. The
        function begins so many bytes behind the first word."""
        arena, rom = bytearray(self.arena), bytearray(self.rom)
        ranges = [(self.sp - self.function.room, self.function.room, True), *self.parts]
        parts = []
        for base, count, stores in ranges:
            memory, at = self.memory(base)
            parts.append(Part(base, bytearray(memory[at : at + count]), stores))
        machine = Machine(words, CODE, self.registers, parts, self.function.profile)
        machine.pc += start
        back = self.registers[1] & ~1
        steps = 0
        while machine.pc != back:
            if steps == most_steps:
                raise Stopped(f"no way back after {steps} steps")
            if watch:
                watch(machine)
            machine.step()
            steps += 1
        for part in parts:
            memory, base = (rom, ROM) if part.base >= ROM else (arena, ARENA)
            memory[part.base - base : part.base - base + len(part.data)] = part.data
        return steps, machine, arena, rom
