"""What `--explain` prints, for the scripts of tests/."""

import re

# What `explain CODE` prints: the code, its name, its rule, and the sources that violate it and that are corrected, where there are any.
HEAD = re.compile(r"^(\w+): ([^\n]+)\n\n(\S.*?)(?:\n\nRefused:\n\n(.*)\n\nAccepted:\n\n(.*))?\n$", re.DOTALL)


def marked(source, line, column):
    """The line of a source, of which a hundred bytes are shown on each side of a place, and a mark below the place."""
    number, text = str(line), source.splitlines()[line - 1]
    front, back = text[: column - 1], text[column - 1 :]
    front = front if len(front) <= 100 else "..." + front[-100:]
    back = back if len(back) <= 100 else back[:100] + "..."
    return f"  {number} | {front}{back}\n  {' ' * len(number)} | {' ' * len(front)}^\n"


def explained_as(cases, what, source, refusal, line):
    cases.file("source.fact", source)
    code, row, column = re.match(r"(\w+) at (\d+):(\d+)", refusal).groups()
    rule = HEAD.match(cases.give(["explain", code]).stdout.decode()).group(3)
    done = cases.give(["check", "--explain", "source.fact"])
    lines = f"refused: {refusal}\n{marked(source, int(row), int(column))}{line}{rule}\n"
    cases.judge(what, cases.problems_of(done, 1, "", lines))
