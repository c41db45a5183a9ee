"""The executables of examples/foreign: what is certified of their functions, and what runs on some secrets show."""

import collections
import os
import random

from cases import TOP
from elf_machine import Executable, listing

FOREIGN = os.path.join(TOP, "examples", "foreign")
RETURNED = "same\nstop Return\n"

# An executable, a function of it with arguments, which variables are secret, for which observer, and what is answered.
Program = collections.namedtuple("Program", "name function arguments secrets profile printed")

PROGRAMS = [
    Program("mix_table", "harness", [], ["key", "block"], 1, RETURNED),
    Program("mix_table", "harness", [], ["key", "block"], 2, RETURNED),
    Program("mix_table", "mix_table", ["block", "key"], ["key", "block"], 1, RETURNED),
    Program("digest_class", "harness", [], ["message"], 1, RETURNED),
    Program("digest_class", "digest_of", ["digest", "message+4", "0x10"], ["message"], 1, RETURNED),
    Program(
        *("digest_class", "harness", [], ["message"], 2),
        "may differ at 46\n000100c4 02d787b3 mul x15, x15, x13\nin take+0x20, called from digest_of+0x3c, called from harness+0x18\n",
    ),
    Program(
        *("smaller", "harness", [], ["one", "other"], 1),
        "may differ at 15\n00010098 00d5e663 bltu x11, x13, 12\nin smaller+0x4, called from harness+0x1c\n",
    ),
    Program("smaller", "harness", [], [], 1, RETURNED),
    Program("chosen_gcc", "harness", [], ["flag", "one", "other"], 2, RETURNED),
    Program("chosen_gcc", "chosen", ["?", "?", "?"], [], 2, RETURNED),
    Program(
        *("chosen_clang", "harness", [], ["flag", "one", "other"], 1),
        "may differ at 15\n000110d4 00051463 bne x10, x0, 8\nin chosen+0x0, called from harness+0x24\n",
    ),
    Program(*("chosen_clang", "chosen", ["?", "?", "?"], [], 1), "may differ at 1\n000110d4 00051463 bne x10, x0, 8\nin chosen+0x0\n"),
    Program("chosen_clang", "chosen", ["1", "?", "?"], [], 1, RETURNED),
    Program("mix_table_rv32imc", "harness", [], ["key", "block"], 2, RETURNED),
    Program("mix_table_rv32imc", "mix_table", ["block", "key"], ["key", "block"], 1, RETURNED),
    Program("digest_class_rv32imc", "harness", [], ["message"], 1, RETURNED),
    Program(
        *("digest_class_rv32imc", "harness", [], ["message"], 2),
        "may differ at 46\n000100b6 02d787b3 mul x15, x15, x13\nin take+0x16, called from digest_of+0x1e, called from harness+0x10\n",
    ),
    Program(
        *("smaller_rv32imc", "harness", [], ["one", "other"], 1),
        "may differ at 15\n00010096 00d5e563 bltu x11, x13, 10\nin smaller+0x2, called from harness+0x16\n",
    ),
    Program("chosen_gcc_rv32imc", "chosen", ["?", "?", "?"], [], 2, RETURNED),
    Program("chosen_gcc_rv32imc", "harness", [], ["flag", "one", "other"], 2, RETURNED),
    Program(
        *("chosen_clang_rv32imc", "harness", [], ["flag", "one", "other"], 1),
        "may differ at 15\n000110d4 e111 bne x10, x0, 4\nin chosen+0x0, called from harness+0x20\n",
    ),
    Program("chosen_clang_rv32imc", "chosen", ["?", "?", "?"], [], 1, "may differ at 1\n000110d4 e111 bne x10, x0, 4\nin chosen+0x0\n"),
    Program("chosen_clang_rv32imc", "chosen", ["1", "?", "?"], [], 1, RETURNED),
]


def data_of(path):
    with open(path, "rb") as file:
        return file.read()


def request_of(program, path):
    """The words behind `elf certify`."""
    secrets = [word for name in program.secrets for word in ("--secret", name)]
    return [path, program.function, *program.arguments, *secrets, "--profile", str(program.profile)]


def settings_of(program, data):
    """Bytes for the secrets: zeros, then some at random."""
    chance = random.Random(program.name)
    sizes = {name: Executable(data).names[name].size for name in program.secrets}
    yield {name: bytes(size) for name, size in sizes.items()}
    for _ in range(5):
        yield {name: chance.randbytes(size) for name, size in sizes.items()}


def listings(cases, program, path):
    """The listings of runs on some secrets, each judged by that of another machine."""
    data = data_of(path)
    for settings in settings_of(program, data):
        words = [word for name, held in settings.items() for word in ("--set", f"{name}=hex:{held.hex()}")]
        lines = listing(data, program.function, program.arguments, settings, program.profile)
        request = [path, program.function, *program.arguments, *words, "--profile", str(program.profile)]
        cases.run(["elf", "leak", *request], 0, "\n".join(lines) + "\n", "")
        yield lines


def shows(cases, program, path, printed):
    """Judges runs by what is certified: none differs before the entry that may differ, and where there is one some does."""
    first, *others = listings(cases, program, path)
    parted = [entry for other in others for entry, (one, two) in enumerate(zip(first, other)) if one != two]
    if printed.startswith("may differ at "):
        entry = int(printed.split("\n")[0].rsplit(" ", 1)[1])
        right = not program.secrets or parted and min(parted) >= entry
    else:
        right = all(other == first for other in others)
    cases.holds(f"{program.name} {program.function}: what is certified, beside {len(others) + 1} runs", right)


def certified(cases):
    """The answers for the executables that are stored."""
    for program in PROGRAMS:
        path = os.path.join(FOREIGN, program.name + ".elf")
        cases.run(["elf", "certify", *request_of(program, path)], 0 if program.printed == RETURNED else 1, program.printed, "")
        shows(cases, program, path, program.printed)


def made_anew(cases):
    """Those of the executables in the folder of the cases, which a compiler has just made: they are certified or not as the stored ones."""
    for program in PROGRAMS:
        path, stored = cases.path(program.name + ".elf"), os.path.join(FOREIGN, program.name + ".elf")
        if not os.path.exists(path):
            print(f"left out: {program.name}.elf made anew, since its compiler is not there")
            continue
        what = "the very bytes" if data_of(path) == data_of(stored) else "other bytes"
        printed = cases.give(["elf", "certify", *request_of(program, path)]).stdout.decode()
        alike = printed == RETURNED if program.printed == RETURNED else printed.startswith("may differ at ")
        cases.judge(f"{program.name} {program.function} made anew, {what}", [] if alike else [printed])
        shows(cases, program, path, printed)
