"""Functions for C as `factc function` writes them: their words by sections, and what their lines for a debugger say."""

import collections
import re

WORD = re.compile(r"^    \.word 0x([0-9a-f]{8})  # (.*)$")
HEAD = re.compile(r"^# (\w+): made by factc [\d.]+ function; (\d+) words(?: and (\d+) shared)?, (\d+) bytes of stack, profile ([12])$")
# The symbol of the tail that functions of small code share, and the line that goes on to it, from a place in it on.
TAIL = "factc.tail.1"
ONWARD = re.compile(rf"^    jal x0, {re.escape(TAIL)}(?:\+(\d+))?$")
ARRAY = re.compile(r"^parameter (\d+): an array$")
SIZES = {"bool": 1, "uint8": 1, "uint16": 2, "uint32": 4}
# What a loop does at once in the code around a body: by the type of elements how many a round copies and from how many on there
# is a loop, whether arrays may share a copier, and how many steps it takes to go on to the tail.
Pace = collections.namedtuple("Pace", "round loop copier onward")
FAST = Pace({"bool": 2, "uint8": 1, "uint16": 1, "uint32": 2}, {"bool": 8, "uint8": 4, "uint16": 4, "uint32": 8}, True, 0)
SMALL = Pace(dict.fromkeys(SIZES, 1), dict.fromkeys(SIZES, 4), False, 1)
# From how many elements on an array goes by the copier.
CALLED = {"bool": 4, "uint8": 4, "uint16": 2, "uint32": 5}


class Section:
    """A title, words, and behind which of them a line says what changes for a debugger."""

    def __init__(self, title):
        self.title, self.words, self.changes = title, [], []

    def copy(self):
        other = Section(self.title)
        other.words, other.changes = list(self.words), list(self.changes)
        return other


def jump_word(offset, register):
    """The word of a jal so many bytes ahead."""
    high = (offset >> 20 & 1) << 31 | (offset >> 1 & 0x3FF) << 21 | (offset >> 11 & 1) << 20 | (offset >> 12 & 0xFF) << 12
    return high | register << 7 | 0x6F


class Function:
    """The sections of a function's text, with what its first line says. Those of the tail that it shares, where it does, are behind
    its own, as if a linker had put the tail there; `entry` is how many bytes from the tail's beginning on it is entered."""

    def __init__(self, text):
        lines = text.splitlines()
        self.name, count, shared, room, profile = HEAD.match(lines[0]).groups()
        self.count, self.shared, self.room, self.profile = int(count), int(shared or 0), int(room), int(profile)
        self.sections, self.above, self.entry = [], 0, None
        for line in lines[lines.index(f"{self.name}:") + 1 :]:
            self.take(line)

    def take(self, line):
        word, onward = WORD.match(line), ONWARD.match(line)
        if line.startswith("    # "):
            self.sections.append(Section(line.removeprefix("    # ")))
        elif word:
            self.sections[-1].words.append(int(word.group(1), 16))
        elif onward:
            self.entry = int(onward[1] or 0)
            self.sections[-1].words.append(jump_word(4 + self.entry, 0))
        elif line.startswith("    .cfi_def_cfa_offset "):
            self.above = int(line.split()[1])
            self.sections[-1].changes.append((len(self.sections[-1].words), line.split()))
        elif line.startswith("    .cfi_") and self.sections and "endproc" not in line:
            self.sections[-1].changes.append((len(self.sections[-1].words), line.split()))

    @property
    def low(self):
        return self.room - self.above

    @property
    def kept(self):
        """How many of the caller's registers it keeps."""
        return sum(len(section.words) for section in self.sections[:2] if section.title == "the caller's registers")

    @property
    def blank(self):
        """How many words of its frame it zeroes one by one, None where it zeroes them all in runs."""
        titles = [section.title for section in self.sections]
        return None if "the frame, zeroed downward" in titles else sum(title.startswith("the frame's word at ") for title in titles)

    @property
    def taken(self):
        """The numbers of the arrays that it copies in."""
        titles = [ARRAY.match(section.title) for section in self.sections]
        return {int(title[1]) for title in titles if title}

    def words(self, sections=None):
        return [word for section in sections or self.sections for word in section.words]

    def copies(self):
        return [section.copy() for section in self.sections]

    def frames(self):
        """Before each word: of which register and which distance the caller's x2 is the sum, and where its registers are kept."""
        register, distance, kept, found = 2, 0, {}, []
        for section in self.sections:
            for place in range(len(section.words)):
                for behind, line in section.changes:
                    if behind == place:
                        register, distance, kept = changed(line, register, distance, kept)
                found.append((register, distance, dict(kept)))
            for behind, line in section.changes:
                if behind == len(section.words):
                    register, distance, kept = changed(line, register, distance, kept)
        return found


def changed(line, register, distance, kept):
    """What a line for a debugger makes of what was known."""
    numbers = [int(part.rstrip(",")) for part in line[1:]]
    if line[0] == ".cfi_startproc":
        return 2, 0, {}
    if line[0] == ".cfi_def_cfa_offset":
        return register, numbers[0], kept
    if line[0] == ".cfi_def_cfa":
        return numbers[0], numbers[1], kept
    if line[0] == ".cfi_offset":
        return register, distance, {**kept, numbers[0]: numbers[1]}
    if line[0] == ".cfi_restore":
        return register, distance, {name: place for name, place in kept.items() if name != numbers[0]}
    raise ValueError(line)


def near(number):
    return number < 2_048


def pace_of(code):
    """The pace of a function that is made with this option."""
    return SMALL if code == "-Os" else FAST


def wrapper_steps(parameters, offsets, frame, result, kept, pointers=None, blank=None, taken=None, pace=FAST):
    """The steps of the code around a body, by the sizes of what it moves: parameters are pairs of a form and a type, in which an
    array's type has a length behind it, offsets are those of their slots, and of the result's where there is one, and so many of
    the caller's registers are kept. Pointers are those of the arrays, by their numbers; those that are not given are multiples
    of 4. So many words of the frame are zeroed one by one, or all of them in runs. Only these arrays are copied in, or all."""
    needed = max((number + 1 for number, (form, _, _) in enumerate(parameters[:8]) if form == "mut"), default=0)
    low, above = blocks(frame), blocks(4 * (kept + needed))
    steps = (1 if above else 0) + kept + needed + framed(low, blank)
    size = round_of(parameters)
    for number, (form, kind, length) in enumerate(parameters):
        stacked = load(low + above + 4 * (number - 8))
        if form == "word":
            meant = {"bool": 1, "uint8": 1, "uint16": 2, "uint32": 0}[kind]
            steps += (0 if number < 8 else stacked) + meant + load(offsets[number])
        else:
            head, back = (1, load(low + above - 4 * needed + 4 * number)) if number < 8 else (stacked, stacked)
            aligned = (pointers or {}).get(number, 0) % 4 == 0
            unchanged = moved(kind, length, aligned, size, pace)
            if taken is None or number in taken:
                passed = copied(kind, length, 3, pace) if kind == "bool" else unchanged
                steps += head + address(offsets[number]) + passed
            steps += back + address(offsets[number]) + unchanged if form == "mut" else 0
    steps += load(result) if result is not None else 1
    return steps + address(low) + 1 + kept + pace.onward + zeroed(low + above) + 15


def zeroed(room):
    """For each block of 16 bytes its stores, x2 moved and the branch."""
    return 6 * (room // 16)


def copied(kind, length, each, pace):
    """Few elements are copied by straight code, more by a loop over some at a time, with those that are left behind it."""
    if length < pace.loop[kind]:
        return each * length
    size = pace.round[kind]
    rounds = length // size
    return loop_end(SIZES[kind] * size * rounds) + (size * each + 3) * rounds + each * (length % size)


def loop_end(number):
    return 1 if near(number) else constant(number) + 1


def round_of(parameters):
    """How many words a round of the copier copies: as many as divide those of each array of smaller elements that goes by it."""
    by_words = [length * SIZES[kind] // 4 for form, kind, length in parameters if goes_by_call(form, kind, length) and kind != "uint32"]
    return next(size for size in (4, 2, 1) if all(words % size == 0 for words in by_words))


def goes_by_call(form, kind, length):
    return (form == "mut" or form == "fixed" and kind != "bool") and length >= CALLED[kind]


def moved(kind, length, aligned, size, pace):
    """Elements that go as they are: few by code of their own, others by the copier, by words or by bytes, with those behind the
    call that are no whole round. Call, test and the jump back take five steps, and a jump over the words one."""
    if length < CALLED[kind] or not pace.copier:
        return copied(kind, length, 2, pace)
    rounds, left = divmod(length, size * 4 // SIZES[kind])
    by_rounds = (2 * size + 3) * rounds if aligned else 5 * 4 * size * rounds + 1
    return loop_end(4 * size * rounds) + 5 + by_rounds + 2 * left


def blocks(number):
    """In whole blocks of 16 bytes."""
    return (number + 15) // 16 * 16


def framed(low, blank):
    if blank is None or not low:
        return constant(low) + 1 + zeroed(low) if low else 0
    return (1 if near(low) else constant(low) + 2) + blank


def address(offset):
    return 1 if near(offset) else constant(offset) + 1


def load(offset):
    return 1 if near(offset) else 3


def constant(number):
    return 1 if near(number) else 2
