"""Random code for the machine. It loads and stores in a frame, computes, and branches, now and then on what it loaded."""

ECALL = 0x00000073
FRAME_BYTES = 32

# Registers that take anything, and those that what is loaded never reaches.
ANY = (5, 6, 7, 10, 11)
KNOWN = (8, 9)


def register_word(funct7, rs2, rs1, funct3, rd):
    return funct7 << 25 | rs2 << 20 | rs1 << 15 | funct3 << 12 | rd << 7 | 0x33


def immediate_word(opcode, immediate, rs1, funct3, rd):
    return (immediate & 0xFFF) << 20 | rs1 << 15 | funct3 << 12 | rd << 7 | opcode


def store_word(offset, rs2, rs1, funct3):
    return (offset >> 5 & 0x7F) << 25 | rs2 << 20 | rs1 << 15 | funct3 << 12 | (offset & 0x1F) << 7 | 0x23


def branch_word(offset, rs2, rs1, funct3):
    high = (offset >> 12 & 1) << 31 | (offset >> 5 & 0x3F) << 25
    return high | rs2 << 20 | rs1 << 15 | funct3 << 12 | (offset >> 1 & 0xF) << 8 | (offset >> 11 & 1) << 7 | 0x63


def loaded(chance):
    """A load from the frame, most often where its size allows."""
    funct3 = chance.choice((0, 1, 2, 2, 4, 5))
    size = 1 << (funct3 & 3)
    offset = chance.randrange(FRAME_BYTES // size) * size + (chance.randrange(60) == 0)
    return [immediate_word(0x03, offset, 2, funct3, chance.choice(ANY))]


def stored(chance):
    funct3 = chance.choice((0, 1, 2, 2))
    offset = chance.randrange(FRAME_BYTES >> funct3) << funct3
    return [store_word(offset, chance.choice(ANY + KNOWN + (0,)), 2, funct3)]


def computed(chance):
    """An operation on two registers or on a register and a number; seldom one of which an observer sees the operands."""
    if chance.randrange(3) == 0:
        rd = chance.choice(ANY + KNOWN)
        rs1 = chance.choice(KNOWN if rd in KNOWN else ANY)
        return [immediate_word(0x13, chance.randrange(4_096), rs1, chance.choice((0, 2, 3, 4, 6, 7)), rd)]
    if chance.randrange(12) == 0:
        rs1, rs2 = (chance.choice(KNOWN) for _ in range(2))
        return [register_word(1, rs2, rs1, chance.randrange(4, 8), chance.choice(ANY))]
    funct7 = chance.choice((0, 0, 0, 0x20, 1))
    funct3 = {0: chance.randrange(8), 0x20: chance.choice((0, 5)), 1: chance.randrange(4 if chance.randrange(30) else 8)}[funct7]
    return [register_word(funct7, chance.choice(ANY), chance.choice(ANY), funct3, chance.choice(ANY + (0,)))]


def looked_up(chance):
    """A load from where a register says: one that is known, or not."""
    index = chance.choice(KNOWN * 3 + ANY)
    mask = immediate_word(0x13, FRAME_BYTES - 4, index, 7, 12)
    return [mask, register_word(0, 2, 12, 0, 12), immediate_word(0x03, 0, 12, 2, chance.choice(ANY))]


def skipping(chance, depth):
    """Some code that a branch may skip, most often by what is known."""
    inner = body(chance, depth - 1)
    one, other = (chance.choice(KNOWN * 3 + ANY) for _ in range(2))
    return [branch_word(4 * (len(inner) + 1), one, other, chance.choice((0, 1, 4, 5, 6, 7))), *inner]


def repeated(chance, depth):
    """Some code a few times, by a counter of its own."""
    inner = body(chance, depth - 1)
    counter = 20 + depth
    count = immediate_word(0x13, chance.randrange(1, 5), 0, 0, counter)
    less = immediate_word(0x13, -1, counter, 0, counter)
    return [count, *inner, less, branch_word(-4 * (len(inner) + 1), 0, counter, 1)]


def body(chance, depth):
    words = []
    for _ in range(chance.randrange(3, 10)):
        choice = chance.randrange(12)
        if choice <= 1 and depth > 0:
            words += skipping(chance, depth)
        elif choice == 2 and depth > 0:
            words += repeated(chance, depth)
        elif choice == 3:
            words += looked_up(chance)
        else:
            words += chance.choice((loaded, stored, computed, computed))(chance)
    return words


def code(chance):
    """Words that most often end by ECALL."""
    words = [immediate_word(0x13, chance.randrange(64), 0, 0, register) for register in KNOWN]
    words += body(chance, 2) + body(chance, 2)
    words += [ECALL] if chance.randrange(12) else []
    if chance.randrange(10) == 0:
        words[chance.randrange(len(words))] = chance.randrange(2**32)
    return words
