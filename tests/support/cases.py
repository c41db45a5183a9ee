"""Cases of the built program: commands in a folder of their own, with what they have to print."""

import os
import shlex
import subprocess
import sys
import tempfile

TOP = os.path.dirname(os.path.dirname(os.path.dirname(os.path.abspath(__file__))))
DEFAULT = os.path.join(TOP, "crates", "factc", "out", "factc")

# The codes of a source: what tests call the image of each, and the flags of `build` and `function` that ask for it.
CODES = (("image", []), ("optimised", ["-O"]), ("small", ["-Os"]))


class Cases:
    """Runs cases in a folder of their own, and counts them."""

    def __init__(self, program, folder):
        self.program = program
        self.folder = folder
        self.passed = 0
        self.failed = 0

    def path(self, name):
        return os.path.join(self.folder, name)

    def file(self, name, data):
        with open(self.path(name), "wb") as file:
            file.write(data if isinstance(data, bytes) else data.encode())

    def judge(self, what, problems):
        if problems:
            self.failed += 1
            print(f"FAILED  {what}")
            for problem in problems:
                print(f"        {problem}")
        else:
            self.passed += 1
            print(f"ok      {what}")

    def holds(self, what, fact):
        self.judge(what, [] if fact else ["it does not hold"])

    def give(self, words, shell=None, before=None):
        """What the program gives on words, through `shell` where redirections are asked for; `before` is
        called in the process before the program begins."""
        command = [self.program, *words]
        if shell is not None:
            line = shlex.join(command)
            command = ["bash", "-c", shell.replace("PROGRAM", line)]
        return subprocess.run(
            command,
            cwd=self.folder,
            stdin=subprocess.DEVNULL,
            capture_output=True,
            timeout=60,
            preexec_fn=before,
        )

    def problems_of(self, done, status, out=None, err=None, out_has=None, err_has=None):
        problems = []
        if done.returncode != status:
            problems.append(f"status {done.returncode}, and not {status}")
        for name, given, wanted in (("out", done.stdout, out), ("err", done.stderr, err)):
            if wanted is not None and given != wanted.encode():
                problems.append(f"{name} is {given!r}, and not {wanted!r}")
        for name, given, wanted in (("out", done.stdout, out_has), ("err", done.stderr, err_has)):
            if wanted is not None and wanted.encode() not in given:
                problems.append(f"{name} is {given!r}, without {wanted!r}")
        return problems

    def run(self, words, status, out=None, err=None, shell=None, out_has=None, err_has=None):
        """Judges a command by its exit status and by what it prints."""
        done = self.give(words, shell)
        problems = self.problems_of(done, status, out, err, out_has, err_has)
        self.judge(f"factc {shlex.join(words)}" + (f"   ({shell})" if shell else ""), problems)

    def says(self, what, words, line, before=None):
        """Judges a command by the one line that it prints: a fault on standard error, anything else on
        standard output. None stands for no line."""
        done = self.give(words, before=before)
        fault = line is not None and line.startswith("refused: ")
        stop = line is not None and line.startswith("stopped: ")
        printed = "" if line is None else line + "\n"
        out, err = ("", printed) if fault or stop else (printed, "")
        self.judge(what, self.problems_of(done, 1 if fault else 5 if stop else 0, out, err))


def main(*parts):
    """Runs parts, each a function of the cases, over the program that the command line names."""
    program = os.path.abspath(sys.argv[1]) if len(sys.argv) > 1 else DEFAULT
    if not os.access(program, os.X_OK):
        print(f"there is no program {program}: run ./build or ./test first")
        print("0 passed, 1 failed")
        return 1
    with tempfile.TemporaryDirectory() as folder:
        cases = Cases(program, folder)
        for part in parts:
            part(cases)
    print(f"{cases.passed} passed, {cases.failed} failed")
    return 1 if cases.failed else 0
