"""What the program's --help says, as docs/man and docs/completions take it."""

import os
import re
import subprocess

TOP = os.path.dirname(os.path.dirname(os.path.dirname(os.path.abspath(__file__))))
BUILT = os.path.join(TOP, "crates", "factc", "out", "factc")
ITEM = re.compile(r"^ +(\S.*?)(?:  +(.*))?$")


def said(program, *words):
    """What the program prints on words."""
    return subprocess.run([program, *words], check=True, capture_output=True, text=True).stdout


class Help:
    """What `--help` says: what the command is for, how it is used, and lists of items under headings."""

    def __init__(self, text):
        self.about, self.usage, self.lists = [], "", {}
        items = None
        for line in text.splitlines():
            heading = re.match(r"^(\w+):$", line)
            if line.startswith("Usage: "):
                self.usage = line.removeprefix("Usage: ")
            elif heading:
                items = self.lists.setdefault(heading.group(1), [])
            elif line and items is None:
                self.about.append(line)
            elif line:
                term, meaning = ITEM.match(line).groups()
                items.append((term, meaning or ""))

    def commands(self):
        """The names of the commands that it lists, but for `help`."""
        return [name for name, _ in self.lists.get("Commands", []) if name != "help"]
