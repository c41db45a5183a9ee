"""What calls of a library's code cost, where gcc has made it: steps and bytes, on the machine of steps.c."""

import collections
import concurrent.futures
import hashlib
import os
import re
import subprocess

from counting import BASE, MEMORY

GCC, OBJCOPY, NM = (f"riscv64-unknown-elf-{tool}" for tool in ("gcc", "objcopy", "nm"))
CC = "cc"
TARGET = ["-march=rv32im", "-mabi=ilp32"]
FLAGS = [*TARGET, "-std=gnu99", "-ffreestanding", "-fbuiltin", "-w", "-ffunction-sections", "-fdata-sections", "-fno-common"]
LINKED = [*TARGET, "-nostdlib", "-nostartfiles", "-static", "-Wl,-N,--no-relax,--gc-sections", f"-Wl,-Ttext={BASE:#x}"]
HERE = os.path.join(os.path.dirname(os.path.abspath(__file__)), "peers")
# What is no library's: what the calls are given, and what stands for a C library.
NOT_COUNTED = ("inputs.o", "memory.o")
SECTION = re.compile(r"^ \.(?:text|rodata|srodata|data|sdata)\S*\s+0x\w+\s+0x(\w+) (\S+)$", re.MULTILINE)
# What the calls are given, with how many bytes, and what is compared behind them.
GIVEN = {"key": 64, "nonce": 16, "header": 64, "text": 1024, "more": 1024, "words": 256, "other_words": 256, "data": 1024}
COEFFICIENTS = ("coefficients", "other_coefficients")
COMPARED = {"data": 1024, "out": 2048}
PRIME = 3329
STACK = BASE + MEMORY - 64
BACK = BASE + MEMORY

def counter(folder):
    """The program that counts steps, as the compiler of this computer makes it."""
    target = os.path.join(folder, "steps")
    give([CC, "-O2", os.path.join(os.path.dirname(HERE), "steps.c"), "-o", target])
    return target


Run = collections.namedtuple("Run", "steps outcome")


def give(words):
    done = subprocess.run(words, capture_output=True, text=True, check=False)
    if done.returncode:
        raise ValueError(f"{words[0]}: {done.stderr[-2000:]}")
    return done.stdout


def random_bytes(name, count):
    """The same bytes each time."""
    return hashlib.shake_128(name.encode()).digest(count)


def inputs():
    """What each buffer holds before a call."""
    for name, count in GIVEN.items():
        yield name, random_bytes(name, count)
    for name in COEFFICIENTS:
        data = random_bytes(name, 1024)
        numbers = [int.from_bytes(data[at : at + 4], "little") % PRIME for at in range(0, 1024, 4)]
        yield name, b"".join(number.to_bytes(2, "little") for number in numbers)


class Library:
    """The calls of a library, compiled at a level with what they need."""

    def __init__(self, folder, counter, level, calls, sources, include, defines=()):
        self.folder, self.counter, self.calls = folder, counter, calls
        os.makedirs(folder, exist_ok=True)
        flags = [GCC, *FLAGS, level, *defines, *(f"-I{place}" for place in (HERE, *include))]
        jobs = [(flags, source, self.path(f"{number}.o")) for number, source in enumerate(sources)]
        jobs.append((flags, calls, self.path("calls.o")))
        jobs.append((flags, os.path.join(HERE, "inputs.c"), self.path("inputs.o")))
        jobs.append(([*flags, "-fno-builtin", "-fno-tree-loop-distribute-patterns"], os.path.join(HERE, "memory.c"), self.path("memory.o")))
        with concurrent.futures.ThreadPoolExecutor(os.cpu_count()) as pool:
            list(pool.map(lambda job: give([*job[0], "-c", job[1], "-o", job[2]]), jobs))
        self.objects = [target for _, _, target in jobs]
        with open(calls, encoding="utf-8") as file:
            self.functions = re.findall(r"^void ((?:call|before)_\w+)\(void\)", file.read(), re.MULTILINE)
        self.names = [function.removeprefix("call_") for function in self.functions if function.startswith("call_")]
        self.image, self.places = self.whole()

    def path(self, name):
        return os.path.join(self.folder, name)

    def linked(self, name, *more):
        """Links functions with the least of the library that they need: where that is, and what the linker said of it."""
        linked, told = self.path(f"{name}.elf"), self.path(f"{name}.map")
        give([GCC, *LINKED, f"-Wl,-Map={told}", *more, *self.objects, "-lgcc", "-o", linked])
        with open(told, encoding="utf-8") as file:
            return linked, file.read().partition("Linker script and memory map")[2]

    def whole(self):
        """The memory with all functions, and the inputs, before a call; and where each name is."""
        kept = [f"-Wl,-u,{name}" for name in (*self.functions, *GIVEN, *COEFFICIENTS, *COMPARED)]
        linked, code = self.linked("all", f"-Wl,-e,{self.functions[0]}", *kept)[0], self.path("all.bin")
        give([OBJCOPY, "-O", "binary", linked, code])
        places = {symbol: int(place, 16) for place, symbol in re.findall(r"^(\w+) \w (\w+)$", give([NM, linked]), re.MULTILINE)}
        with open(code, "rb") as file:
            data = file.read()
        memory = bytearray(data + bytes(MEMORY - len(data)))
        for name, given in inputs():
            memory[places[name] - BASE : places[name] - BASE + len(given)] = given
        return bytes(memory), places

    def bytes_of(self, name):
        """How many bytes a call needs, with itself."""
        told = self.linked(name, f"-Wl,-e,call_{name}")[1]
        sizes = SECTION.findall(re.sub(r"^( \.\S+)\n", r"\1", told, flags=re.MULTILINE))
        return sum(int(size, 16) for size, where in sizes if os.path.basename(where) not in NOT_COUNTED)

    def run(self, name):
        """A call's steps, and what is compared behind it."""
        path = self.path(f"{name}.memory")
        with open(path, "wb") as file:
            file.write(self.image)
        entries = [str(self.places[entry]) for entry in (f"before_{name}", f"call_{name}") if entry in self.functions]
        told = give([self.counter, *map(str, (BASE, MEMORY, STACK, BACK)), path, *entries])
        with open(path, "rb") as file:
            memory = file.read()
        os.remove(path)
        return Run(int(told.split()[-1]), [memory[self.places[buffer] - BASE :][:size] for buffer, size in COMPARED.items()])

    def given(self):
        """What is compared, as it is before a call."""
        return [self.image[self.places[name] - BASE :][:size] for name, size in COMPARED.items()]
