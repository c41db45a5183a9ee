"""The commands that stand in the comments of the examples: lines `//     factc ..`, with what is printed after `prints:`."""

import glob
import os
import re

from cases import TOP

COMMAND = re.compile(r"^//\s+factc (.*?)(?:\s+prints: (.*))?$")


def examples():
    return sorted(glob.glob(os.path.join(TOP, "examples", "*.fact")))


def commands(example):
    """The words of each command of an example, and the output that it is to have; a command without one prints nothing."""
    with open(example, encoding="utf-8") as lines:
        for line in lines:
            match = COMMAND.match(line.rstrip("\n"))
            if match:
                printed = match.group(2)
                yield match.group(1).split(), "" if printed is None else printed + "\n"
