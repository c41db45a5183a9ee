"""Functions for C that are wrong, made of right ones: each breaks what is promised of a call in one point."""

import collections

from functions import jump_word

NOTHING = 0x00000013  # addi x0, x0, 0
LOAD, STORE, NUMBER = 0x03, 0x23, 0x13
CALL = 0xF6F  # the lower bits of jal x30
ONWARD = "on to the tail that functions share"
COPIER = "from x5 to x6 up to x7, and back"


def immediate_word(opcode, number, rs1, funct3, rd):
    return (number & 0xFFF) << 20 | rs1 << 15 | funct3 << 12 | rd << 7 | opcode


def store_word(offset, rs2, rs1, funct3):
    return (offset >> 5 & 0x7F) << 25 | rs2 << 20 | rs1 << 15 | funct3 << 12 | (offset & 0x1F) << 7 | STORE


def branch_word(offset, rs2, rs1, funct3):
    high = (offset >> 12 & 1) << 31 | (offset >> 5 & 0x3F) << 25
    return high | rs2 << 20 | rs1 << 15 | funct3 << 12 | (offset >> 1 & 0xF) << 8 | (offset >> 11 & 1) << 7 | 0x63


def with_target(word, register):
    """The word of the same instruction into another register."""
    return word & ~0xF80 | register << 7


def titled(sections, title, last=False):
    found = [section for section in sections if section.title == title]
    return found[-1 if last else 0]


def exchange(section, word, other):
    """Puts a word in the place of another, which has to be there."""
    section.words[section.words.index(word)] = other


def aimed(sections):
    """The same sections, in which each call of the copier goes there, wherever it is now."""
    if sections[-1].title != COPIER:
        return sections
    at, end = 0, sum(len(section.words) for section in sections[:-1])
    for section in sections[:-1]:
        for number, word in enumerate(section.words):
            if word & 0xFFF == CALL:
                section.words[number] = jump_word(4 * (end - at), 30)
            at += 1
    return sections


def opcode_of(word):
    return word & 0x7F, word >> 12 & 7


def x8_is_not_restored(function):
    sections = function.copies()
    exchange(titled(sections, "the caller's registers", last=True), immediate_word(LOAD, 0, 5, 2, 8), NOTHING)
    return sections


def x8_is_not_saved(function):
    sections = function.copies()
    exchange(titled(sections, "the caller's registers"), store_word(0, 8, 2, 2), NOTHING)
    return sections


def only_the_frame_is_wiped(function):
    sections = function.copies()
    zeros = [store_word(offset, 0, 2, 2) for offset in range(0, function.low, 4)]
    titled(sections, "all the room, wiped upward").words = [*zeros, immediate_word(NUMBER, function.room, 2, 0, 2)]
    return sections


def the_wipe_stops_a_run_early(function):
    sections = function.copies()
    section = titled(sections, "all the room, wiped upward")
    section.words = [immediate_word(NUMBER, -32, 5, 0, 5), *section.words, immediate_word(NUMBER, 32, 2, 0, 2)]
    return sections


def slots_are_zeroed_before_copying_back(function):
    sections = function.copies()
    titled(sections, "the result").words += [store_word(offset, 0, 2, 2) for offset in range(0, function.low, 4)]
    return sections


def x28_is_not_cleared(function):
    sections = function.copies()
    exchange(titled(sections, "temporaries, wiped"), immediate_word(NUMBER, 0, 0, 0, 28), NOTHING)
    return sections


def a_bool_is_its_lowest_bit(function):
    sections = function.copies()
    exchange(titled(sections, "parameter 0: a word"), 0x00A03533, immediate_word(NUMBER, 1, 10, 7, 10))  # sltu x10, x0, x10
    return sections


def bytes_are_copied_by_words(function):
    """The test of the places says that both are multiples of 4."""
    sections = function.copies()
    exchange(titled(sections, COPIER), immediate_word(NUMBER, 3, 28, 7, 28), immediate_word(NUMBER, 0, 28, 7, 28))
    return sections


def the_next_stack_argument_is_taken(function):
    sections = function.copies()
    place = function.room
    exchange(titled(sections, "parameter 8: a word"), immediate_word(LOAD, place, 2, 2, 5), immediate_word(LOAD, place + 4, 2, 2, 5))
    return sections


def one_element_more_is_copied_back(function):
    sections = function.copies()
    titled(sections, "parameter 1: the array, back").words += [immediate_word(LOAD, 0, 5, 5, 28), store_word(0, 28, 6, 1)]
    return sections


def zeros_are_skipped(function):
    sections = function.copies()
    section = titled(sections, "parameter 10: an array")
    place = section.words.index(store_word(0, 28, 6, 0))
    section.words.insert(place, branch_word(8, 0, 28, 0))
    return sections


def a_const_array_is_copied_back(function):
    """The code that copies it in, with its places exchanged, once more behind the result."""
    sections = function.copies()
    pointer, place, *call = titled(sections, "parameter 1: an array").words
    titled(sections, "the result").words += [with_target(pointer, 6), with_target(place, 5), *call]
    return sections


def words_are_copied_from_an_even_address(function):
    """The test of the places asks for multiples of 2 alone."""
    sections = function.copies()
    exchange(titled(sections, COPIER), immediate_word(NUMBER, 3, 28, 7, 28), immediate_word(NUMBER, 1, 28, 7, 28))
    return sections


def the_rest_behind_the_words_is_left_out(function):
    """What is no whole word of five halves: the last load and the last store of the section."""
    sections = function.copies()
    words = titled(sections, "parameter 6: the array, back").words
    if words[-2:] != [immediate_word(LOAD, 0, 5, 5, 28), store_word(0, 28, 6, 1)]:
        raise ValueError("the last element is copied otherwise")
    words[-2:] = [NOTHING, NOTHING]
    return sections


def the_tail_is_entered_behind_its_loop(function):
    """The room is not wiped."""
    sections = function.copies()
    wiping = titled(sections, "all the room, wiped upward")
    exchange(titled(sections, ONWARD), jump_word(4, 0), jump_word(4 + 4 * len(wiping.words), 0))
    return sections


def the_tail_is_entered_with_another_x5(function):
    """The room is wiped up to where x5 points, and x2 is that then."""
    sections = function.copies()
    right, wrong = (immediate_word(NUMBER, function.above - less, 5, 0, 5) for less in (0, 16))
    exchange(titled(sections, "the caller's x2"), right, wrong)
    return sections


# Why qemu does not see that a function is wrong.
LIST, MISALIGNED = "its list alone differs", "it loads misaligned words"

# The function that is made wrong, what is wrong with it, how it is made, and why qemu does not see it, if it does not.
Wrong = collections.namedtuple("Wrong", "name what make hidden")
ALL = [
    Wrong("sha256_block -O", "x8 is not restored", x8_is_not_restored, None),
    Wrong("sha256_block -O", "x8 is not saved", x8_is_not_saved, None),
    Wrong("swap2", "only the frame is wiped", only_the_frame_is_wiped, None),
    Wrong("sha256_block", "the wipe stops a run early", the_wipe_stops_a_run_early, None),
    Wrong("swap2", "the slots are zeroed before an array is copied back", slots_are_zeroed_before_copying_back, None),
    Wrong("add_one", "x28 is not cleared", x28_is_not_cleared, None),
    Wrong("pick", "a bool is its lowest bit", a_bool_is_its_lowest_bit, None),
    Wrong("mixed", "an array of bytes is copied by words", bytes_are_copied_by_words, MISALIGNED),
    Wrong("mixed", "words are copied from an even address", words_are_copied_from_an_even_address, MISALIGNED),
    Wrong("mixed", "the rest behind the words is left out", the_rest_behind_the_words_is_left_out, None),
    Wrong("mixed", "the first argument on the stack is taken from the next place", the_next_stack_argument_is_taken, None),
    Wrong("swap2", "one element more is copied back", one_element_more_is_copied_back, None),
    Wrong("mixed", "elements that are 0 are not copied", zeros_are_skipped, LIST),
    Wrong("table_lookup", "a const array is copied back", a_const_array_is_copied_back, None),
    Wrong("swap2 -Os", "the tail is entered behind its loop", the_tail_is_entered_behind_its_loop, None),
    Wrong("sha256_block -Os", "the tail is entered with x5 below the caller's x2", the_tail_is_entered_with_another_x5, None),
]


def made(wrong, function):
    """The sections of the function with this fault."""
    return aimed(wrong.make(function))


def text(function, sections):
    """These words as a text for an assembler, under the function's name."""
    words = "".join(f"    .word {word:#010x}\n" for section in sections for word in section.words)
    name = function.name
    return f'    .option norvc\n    .section .text.{name}, "ax", @progbits\n    .p2align 2\n    .globl {name}\n{name}:\n{words}'
