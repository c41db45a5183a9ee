"""The library of routines: their sources, their vectors, and what is made of them."""

import os
import re
import shutil
import subprocess

from calls import Signature
from cases import TOP
from riscv_tools import FREE, GCC, QEMU, TARGET, made

LIBRARY = os.path.join(TOP, "routines")
ALL = os.path.join(LIBRARY, "c", "routines.h")
BOARD = os.path.join(TOP, "examples", "firmware")
LINE = re.compile(r"^(\w+): (.*) = (.*)$")
# A line at the head of a source that names libraries which are read before it.
WITH = re.compile(r"^// (--with .*)$", re.MULTILINE)
C = [*TARGET, *FREE, "-std=c99", "-O1", "-Wall", "-Wextra", "-Werror"]
TYPES = {"bool": "bool", "uint8": "uint8_t", "uint16": "uint16_t", "uint32": "uint32_t"}
# Those whose runs take long: a test runs their first vector alone.
SLOW = (
    "p256_scalar_multiply",
    "ed25519_scalar_multiply",
    "x25519",
    "p256_sign",
    "p256_verify_scalars",
    "p256_invert",
    "f25519_invert",
    "ed25519_decode",
    "modular_power_128",
)
# Those that take several blocks a call: which argument says how many, what it counts, the bytes of a block, and the most of it.
SEVERAL = {
    "aes128_ctr": ("length", "bytes", 16, 256),
    "aes256_ctr": ("length", "bytes", 16, 256),
    "chacha20_blocks": ("length", "bytes", 64, 256),
    "ghash_blocks": ("length", "bytes", 16, 256),
    "poly1305_blocks": ("length", "bytes", 16, 256),
    "siphash24_blocks": ("count", "blocks", 8, 8),
}
# The codes that are kept, by the option that asks for one, each with the folders of its texts for an assembler and its headers.
KEPT = {"-O": {".s": "asm", ".h": "include"}, "-Os": {".s": "small", ".h": "small"}}
MOST_SECONDS = 1_000


def names():
    """The folders of the library that hold a routine of their own name."""
    return sorted(name for name in os.listdir(LIBRARY) if os.path.isfile(os.path.join(LIBRARY, name, name + ".fact")))


def all_headers():
    """The one header for all: those of the routines, and those of the C files around them, which have vectors."""
    found = sorted(os.listdir(os.path.join(LIBRARY, "c")))
    files = [name.removesuffix(".vectors") for name in found if name.endswith(".vectors")]
    lines = ["/* All headers of the library: written by routines/make. */", "#ifndef HEPURITA_ROUTINES_H", "#define HEPURITA_ROUTINES_H"]
    return "\n".join([*lines, *(f'#include "{name}.h"' for name in names() + files), "#endif", ""])


def numbers(text):
    """A list of numbers, or of bytes after `hex:`."""
    if text.startswith("hex:"):
        return list(bytes.fromhex(text.removeprefix("hex:")))
    return [int(number, 0) for number in text.split(",")]


def read(path):
    with open(path, encoding="utf-8") as file:
        return file.read()


def libraries_of(source):
    """The libraries that a source names."""
    words = " ".join(WITH.findall(read(source))).split()
    return [os.path.join(LIBRARY, word) for word in words if word != "--with"]


def shared():
    """The files of procedures that several sources share."""
    folder = os.path.join(LIBRARY, "lib")
    return sorted(os.path.join(folder, name) for name in os.listdir(folder))


class Vector:
    """A call with what it has to give: the result first, where there is one, then the arrays that it changes."""

    def __init__(self, label, given, wanted):
        self.label = label
        self.given = [numbers(word) for word in given.split()]
        self.wanted = [numbers(word) for word in wanted.split()]


class Routine:
    """A routine of the library, with its vectors."""

    def __init__(self, name):
        self.name = name
        self.libraries = libraries_of(self.file(".fact"))
        # how a command is told to read the source
        self.source = [*(f"--with={path}" for path in self.libraries), self.file(".fact")]
        self.text = "\n".join(read(path) for path in (*self.libraries, self.file(".fact")))
        self.signature = Signature(self.text)
        lines = read(self.file(".vectors")).splitlines()
        self.vectors = [Vector(*LINE.match(line).groups()) for line in lines if line and not line.startswith("#")]

    def file(self, end):
        return os.path.join(LIBRARY, self.name, self.name + end)

    def stored(self, code, end):
        """Where the library keeps the text for an assembler or the header of a code."""
        return os.path.join(LIBRARY, KEPT[code][end], self.name + end)

    def words(self, vector):
        return [",".join(map(str, argument)) for argument in vector.given]

    def unknown(self):
        """The arguments of the first vector, with every secret unknown."""
        given = self.words(self.vectors[0])
        return ["?" if parameter.label == "secret" else word for parameter, word in zip(self.signature.parameters, given)]

    def changed(self):
        return [number for number, parameter in enumerate(self.signature.parameters) if parameter.form == "mut"]

    def outcome(self, vector):
        """What `eval` and `run` have to print."""
        wanted = list(vector.wanted)
        lines = [f"return {wanted.pop(0)[0]}"] if self.signature.result else []
        lines += [f"array {number} {','.join(map(str, elements))}" for number, elements in zip(self.changed(), wanted)]
        return "".join(line + "\n" for line in lines)

    def caller(self):
        """A program in C that calls the function with each vector, and names those that give something else."""
        lines = ['#include "board.h"', f'#include "{self.name}.h"', ""]
        lines += ["static inline int differ(const void *one, const void *other, uint32_t count) {"]
        lines += ["    const unsigned char *a = one, *b = other;", "    int found = 0;"]
        lines += ["    while (count--)", "        found |= *a++ ^ *b++;", "    return found;", "}", ""]
        for number, vector in enumerate(self.vectors):
            lines += self.call_of(number, vector)
        lines += ["int main(void) {"]
        for number, vector in enumerate(self.vectors):
            text = f" {vector.label}\\n"
            lines += [f'    if (call_{number}()) board_write("wrong{text}", {len(vector.label) + 7}); else board_write("right{text}", {len(vector.label) + 7});']
        return "\n".join(lines + ["    return 0;", "}", ""])

    def call_of(self, number, vector):
        lines, names, checks = [f"static int call_{number}(void) {{"], [], []
        wanted = list(vector.wanted)
        result = wanted.pop(0)[0] if self.signature.result else None
        for parameter, argument in zip(self.signature.parameters, vector.given):
            kind, at = TYPES[parameter.kind], len(names)
            if parameter.form == "word":
                names.append(f"{argument[0]}u")
                continue
            fixed = "" if parameter.form == "mut" else "const "
            lines.append(f"    static {fixed}{kind} a{at}[] = {{{', '.join(f'{element}u' for element in argument)}}};")
            if parameter.form == "mut":
                lines.append(f"    static const {kind} w{at}[] = {{{', '.join(f'{element}u' for element in wanted.pop(0))}}};")
                checks.append(f"differ(a{at}, w{at}, sizeof w{at})")
            names.append(f"a{at}")
        call = f"{self.name}({', '.join(names)})"
        if result is None:
            return lines + [f"    {call};", f"    return {' || '.join(checks)};", "}", ""]
        return lines + [f"    uint32_t result = {call};", f"    return {' || '.join([f'result != {result}u', *checks])};", "}", ""]


def problems_of(program, words, wanted, folder=None):
    """Runs the program: what is wrong with what it prints."""
    done = subprocess.run([program, *words], cwd=folder, stdin=subprocess.DEVNULL, capture_output=True, text=True, timeout=MOST_SECONDS)
    if (done.returncode, done.stdout, done.stderr) == (0, wanted, ""):
        return []
    return [f"status {done.returncode}, {(done.stdout + done.stderr)[:200]!r}, and not {wanted[:200]!r}"]


def linked(routine, assembler, header, folder):
    """Links the caller with the function and runs it: what is wrong with each vector."""
    caller = os.path.join(folder, routine.name + "_caller.c")
    with open(caller, "w", encoding="utf-8") as file:
        file.write(routine.caller())
    target = os.path.join(folder, routine.name + ".elf")
    board = os.path.join(BOARD, "board_linux.c")
    told = made([GCC, *C, "-I", BOARD, "-I", os.path.dirname(header), caller, board, assembler, "-o", target], folder)
    if told:
        return {vector.label: [told] for vector in routine.vectors}
    done = subprocess.run([QEMU, target], capture_output=True, text=True, timeout=MOST_SECONDS)
    said = dict(reversed(line.split(" ")) for line in done.stdout.splitlines())
    return {v.label: [] if said.get(v.label) == "right" else [f"linked it is {said.get(v.label, 'not called')}"] for v in routine.vectors}


def left_out():
    """Which tools are missing, for the parts that need them."""
    return [tool for tool in (GCC, QEMU) if not shutil.which(tool)]
