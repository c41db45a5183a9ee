"""What bounds requests for memory that state no size: each is bounded by what is given.

A request that stands in no loop is made as often as its line is reached. One in a `for` over something given is made once
for each part of that. What is left is judged here:

- A loop that counts, `while`, `loop` or a `for` over numbers, in which memory grows, itself or by what it calls, is a line of
  LOOPS, unless its numbers end with the length of something held.
- A recursion that ends by a measure of its own, in which memory grows, is a line of RECURSIONS. Any other goes down a list or
  a tree that is given: the checker asks for a measure where one does not.
- Numbers are iterated over in the head of a `for` alone, and nothing is repeated without an end: so what is collected, or
  extended by, is something given. An exception is a line of RANGES.
- What is formatted has the width that it needs, or a few columns that its text states.
- An array has as many elements as are listed, or a few thousands.
"""

import ast
import glob
import os
import re

from rattle_sources import calls_one, closing, functions, owners_for

# Loops that count, in which memory grows: file, function, and what bounds it.
LOOPS = [
    ("codegen/src/homes.rt", "all_weights", "the variables of a program, which have weights"),
    ("codegen/src/statements.rt", "statements", "the statements that it is given: each iteration takes one of them or four"),
    ("commands/src/step_counts.rt", "run_counting", "nothing is kept from step to step"),
    ("elf/src/reading.rt", "segments_of", "the program headers, all of which lie in the file, as is checked before"),
    ("elf_runs/src/calls.rt", "calls_behind_entries", "64 calls at most, which have room from the beginning"),
    ("elf_memory/src/machine_memory.rt", "marks_of", "the ranges that it is given"),
    ("elf_memory/src/machine_memory.rt", "memory_of", "the ranges that it is given"),
    ("elf_witnesses/src/witnessing.rt", "find_witness", "nothing is kept from try to try"),
    ("elf_runs/src/code.rt", "halfwords_of", "the bytes that a file has of a segment: a halfword for every two"),
    ("elf_runs/src/code.rt", "words_of", "the bytes that a file has of a segment: a word for every four"),
    ("functions/src/function_code/copying.rt", "elements", "sixteen elements at most, by its precondition"),
    ("compilation/src/blank.rt", "push_words", "the words of a variable of the frame, 32,768 at most, by its precondition"),
    ("hepurita/src/elements.rt", "numbers", "the elements of an array of the frame, put into room that is there"),
    ("image/src/reading.rt", "slots", "the bytes that are left: a slot that they do not spell ends it"),
    ("image/src/reading.rt", "words", "the bytes that are left: a word that they do not spell ends it"),
    ("input_files/src/harts_file/plan.rt", "read_lines", "the plan, and the longest line of the file"),
    ("input_files/src/harts_file/taking.rt", "take_rounds", "the turns that a line asks for, 1,048,576 at most with all before"),
    ("intervals/src/ranges.rt", "first_bounds", "what the body declares"),
    ("listing/src/steps.rt", "write_steps", "nothing is kept from step to step"),
    ("optimisation/src/constants/statements.rt", "iterations", "the iterations of a loop that is unrolled, as `choice` counts"),
    ("straight_words/src/element_words/plan.rt", "push_words", "the elements of a declared array"),
    ("straight_words/src/element_words/statements.rt", "push_words", "the elements of a declared array"),
    ("optimisation/src/iteration_groups/statements.rt", "push_copies", "four copies at most, each of a body of 24 nodes at most"),
    ("straight_words/src/live_words/choice.rt", "own_variables", "the words that may share, 1,024 at most"),
    ("straight_words/src/live_words/choice.rt", "place_all", "the words that may share, 1,024 at most"),
    ("variable_room/src/set_whole/statements.rt", "watch_iterations", "nothing is kept from iteration to iteration"),
    ("straight_words/src/live_words/statements.rt", "in_order", "the statements that it is given, each of which it takes away"),
    ("requests/src/changes.rt", "print_changes_at", "the values of a byte, of which each is answered and dropped"),
    ("run_reports/src/pictures/painting.rt", "length_of", "nothing is kept from step to step"),
    ("run_reports/src/pictures/painting.rt", "paint", "nothing is kept from step to step but in the cells of a page"),
    ("run_reports/src/progress/certifying.rt", "certify_in_pieces", "nothing is kept from piece to piece"),
    ("run_reports/src/progress/comparing.rt", "compare_telling", "nothing is kept from step to step"),
    ("run_reports/src/progress/running.rt", "run_in_pieces", "what the recorder keeps, which is the caller's"),
    ("run_reports/src/run_places/shown.rt", "shown_at", "nothing is kept from step to step"),
    ("run_reports/src/run_places/steps.rt", "last_before", "nothing is kept from step to step"),
    ("rv_machine/src/machine.rt", "run", "what the recorder keeps, which is the caller's"),
    ("rv_machine/src/paged.rt", "add_pages", "the addresses of a range that is asked for: a page for each 4,096 bytes"),
    ("rv_machine/src/pairing.rt", "compare", "nothing is kept from step to step"),
    ("rv_programs/src/steps.rt", "run", "what the recorder keeps, which is the caller's"),
    ("source_eval/src/statements.rt", "repeat", "what the body declares, which is dropped after each iteration"),
    ("streams/src/sink.rt", "put_all", "nothing is kept: the sink takes the bytes that it is given"),
    ("streams/src/source.rt", "get_up_to", "the bytes that the source has, and the limit"),
    ("tokens/src/lexer.rt", "tokens_of", "the bytes of the text: each token takes some"),
    ("syntax/src/parser.rt", "procedures", "the tokens of the text: each part takes some"),
    ("syntax/src/parser/expression.rt", "further", "the tokens of the text: each sign is taken"),
    ("syntax/src/parser/procedure.rt", "parameters", "the tokens of the text: each comma is taken"),
    ("syntax/src/parser/right_side.rt", "expressions", "the tokens of the text: each comma is taken"),
    ("syntax/src/parser/statement.rt", "statements", "the tokens of the text: each statement takes some"),
]

# Recursions with a measure in which memory grows: file, the function or the `#[cycle(..)]`, and what bounds it.
RECURSIONS = [
    ("branch_removal/src/removal.rt", "removal", "the statements of the body: each is followed once, and its copies have its size"),
    ("branch_removal/src/type_checks.rt", "types", "nothing is added: types are compared"),
    ("codegen/src/statements.rt", "statements", "the statements of straight code, each of which is followed once"),
    ("inline/src/numbering.rt", "numbering", "the nodes of the inlined body, which are counted before: 6,000 at most"),
    ("optimisation/src/constants/choice.rt", "choice", "nothing is added: an entry a counter is there before"),
    ("optimisation/src/constants/costs.rt", "costs", "nothing is added: what code takes is counted"),
    ("optimisation/src/constants/known.rt", "forgetting", "nothing is added: what is known of a variable is taken away"),
    ("optimisation/src/constants/statements.rt", "simplification", "the statements, and the iterations that are unrolled"),
    ("optimisation/src/constants/terms.rt", "simple", "the nodes of an expression, each of which is followed once"),
    ("straight_words/src/element_words/narrowing.rt", "narrowing", "nothing is added: an entry an array is there before"),
    ("straight_words/src/element_words/statements.rt", "splitting", "the statements of straight code, each of which is followed once"),
    ("optimisation/src/iteration_groups/losses.rt", "losses", "nothing is added: what is lost is counted"),
    ("optimisation/src/iteration_groups/statements.rt", "grouping", "the statements of straight code, in groups up to seven times"),
    ("straight_words/src/live_words/gathering.rt", "gathering", "a flag a variable, for each level of nesting"),
    ("straight_words/src/live_words/statements.rt", "sharing", "the statements of straight code, and a flag a variable for each level"),
    ("variable_room/src/number_words/uses.rt", "counts", "the numbers that are counted, 256 at most"),
    ("straight_words/src/rewriting/statements.rt", "statements", "the statements of straight code, each of which is followed once"),
    ("variable_room/src/set_first.rt", "order", "a flag a variable, for each level of nesting"),
    ("variable_room/src/set_whole/watch.rt", "watching", "a flag an element and a counter a loop around, for each level of nesting"),
    ("source_eval/src/statements.rt", "statement", "what the open bodies declare, 64 at most, and the lists that a statement has"),
    ("syntax/src/parser.rt", "expression", "the tokens of the text: each node takes some"),
    ("syntax/src/parser.rt", "statement", "the tokens of the text: each node takes some"),
]

# Numbers that are iterated over elsewhere: file, the line's code, and why they may be.
RANGES = [
    ("command_line/src/grammar.rt", ".num_args(0..)", "how many words a command may have, which are given"),
]

# What makes memory grow.
GROWS = re.compile(
    r"\b(?:Box|Rc|Arc)::\w*new\w*\(|\b\w*with_capacity\w*\(|\b(?:try_)?alloc(?:ate\w*|_zeroed)\(|\balloc::alloc"
    r"|\.(?:push|insert|extend|resize|reserve|append|sort_by)\w*\(|\.(?:collect|to_vec|to_string|to_owned|join|concat|repeat|arg)(?:::<[^;]*?>)?\("
    r"|\.clone\(\)\?|\b(?:try_)?from_(?:str|slice|iter|elem)\(|\bput\(&mut |\b(?:vec|format|write|writeln)!"
)
COLUMNS = 16
ELEMENTS = 4096
ENDLESS = re.compile(
    r"\biter::|\buse [^;]*\biter\b|\.cycle\(|\b(?:repeat_with|repeat_n|successors|from_fn|zip_longest)\b|\bIterator for\b"
)
LOOP = re.compile(r"\b(while|loop|for)\b([^;{}]*)\{")


def loops(code):
    """Each loop: its place, its keyword, its head and its body. A `for` of a type's implementation is none."""
    for match in LOOP.finditer(code):
        keyword, head = match.groups()
        if keyword == "for" and re.search(r"\bin\b", head) is None:
            continue
        yield match.start(), keyword, head, code[match.end() - 1 : closing(code, match.end() - 1)]


def counts(keyword, head):
    """Whether a loop goes over no thing that is given, nor over the places of one."""
    if keyword != "for":
        return True
    over = re.split(r"\bin\b", head, maxsplit=1)[1].strip()
    return ".." in without_indices(over) and re.fullmatch(r"(?:0|[\w.()]+\.len\(\))\.\.[\w.]+(?:\(\)\.[\w.]+)*\.len\(\)", over) is None


def without_indices(code):
    """The code without what stands in square brackets."""
    while re.search(r"\[[^\[\]]*\]", code):
        code = re.sub(r"\[[^\[\]]*\]", "", code)
    return code


def growing(sources, below):
    """What says whether memory grows in a part of a function's body, itself or by what it calls."""
    all_of = [it for it in functions(sources) if it.body is not None]
    found = {it for it in all_of if GROWS.search(it.body)}
    owners, more = {}, True
    while more:
        owners = {crate: owners_for(crate, below.get(crate, ()), found) for crate in {it.crate for it in all_of}}
        more = {it for it in all_of if it not in found and calls_one(it, it.body, owners[it.crate])}
        found = found | more
    return lambda function, part: GROWS.search(part) is not None or calls_one(function, part, owners[function.crate])


def judge_loops(judge, sources, below):
    problems, number = [], 0
    grows = growing(sources, below)
    for function in functions(sources):
        for place, keyword, head, body in loops(function.body or ""):
            if not counts(keyword, head) or not grows(function, body):
                continue
            number += 1
            rows = [row for row in LOOPS if row[:2] == (function.source.name, function.name)]
            judge.met.update(row[:2] for row in rows)
            if not rows:
                line = function.source.line_of(function.body_at + place)
                problems.append(f"{function.source.name}:{line}: {function.name}: {keyword}{' '.join(head.split())}")
    judge.judge(f"each loop that counts, in which memory grows, is bounded by what is given ({number} loops)", problems)


def measured(top):
    """The recursions that are proved to end by a measure: file, and the function or the cycle."""
    for path in glob.glob(os.path.join(top, "crates", "*", "proofs", "**", "+*", "Invariants.antt"), recursive=True):
        with open(path, encoding="utf-8") as file:
            if "decreases" not in file.read():
                continue
        crate, _, *modules, name = os.path.relpath(os.path.dirname(path), os.path.join(top, "crates")).split(os.sep)
        # Types stand between modules and functions, and are no files.
        modules = [it for it in modules if it.islower()]
        yield f"{crate}/src/{'/'.join(modules)}.rt", name[1:]


def judge_recursions(judge, sources, below, measures):
    """`measures`: the recursions that have one."""
    grows, problems, number = growing(sources, below), [], 0
    for file, name in measures:
        near = [source for source in sources if source.name == file or source.name.startswith(file.removesuffix(".rt") + "/")]
        # A type's functions may be in other files of its crate than the type.
        parts = parts_of(near, name) or parts_of([it for it in sources if it.name.split("/")[0] == file.split("/")[0]], name)
        if parts and not any(grows(it, it.body) for it in parts):
            continue
        number += 1
        rows = [row for row in RECURSIONS if row[:2] == (file, name)]
        judge.met.update(row[:2] for row in rows)
        if not rows:
            problems.append(f"{file}: {name}, of {len(parts)} functions")
    judge.judge(f"each recursion with a measure, in which memory grows, is bounded by what is given ({number} recursions)", problems)


def parts_of(sources, name):
    """The functions of a recursion: that of its name, or those of its cycle."""
    return [
        it
        for it in functions(sources)
        if it.body is not None and (it.name == name or f"#[cycle({name})]" in it.source.code[: it.at].rsplit("}", 1)[-1])
    ]


def is_counted(code, at):
    """Whether `..` stands where nothing is iterated over but by a `for`: in its head, in an index, in an arm's pattern, or without
    a number that it begins with."""
    before, after = code[:at].rstrip(), code[at:].lstrip(".=")
    if re.search(r"\w$|[)\]]$", before) is None or re.search(r"\bfor\b[^;{}]*\bin\b[^;{}]*$", before):
        return True
    if re.match(r"\s*-?[\w.:]+\s*(?:(?:\||if\b)[^;{}]*?)?=>", after):
        return True
    depth = 0
    for place in range(at - 1, -1, -1):
        letter = code[place]
        if letter in ")]}":
            depth += 1
        elif letter in "([{" and depth:
            depth -= 1
        elif letter in "([{":
            return letter == "[" and re.search(r"[\w)\]]$", code[:place]) is not None
    return False


def judge_ranges(judge, sources):
    problems = []
    for source in sources:
        places = [match.start() for match in re.finditer(r"\.\.", source.code) if not is_counted(source.code, match.start())]
        places += [match.start() for match in ENDLESS.finditer(source.code)]
        for place in places:
            if not judge.excused(RANGES, source, place):
                problems.append(f"{source.name}:{source.line_of(place)}: {source.text_of(place)}")
    judge.judge("numbers are iterated over by `for` alone, and nothing is repeated without an end", problems)


def spelled(literal):
    """What a string spells."""
    plain = re.sub(r"\\u\{([0-9a-fA-F_]+)\}", lambda match: chr(int(match.group(1).replace("_", ""), 16)), literal)
    plain = re.sub(r"\\\n\s*", "", plain).replace("\n", "\\n")
    try:
        return ast.literal_eval(plain)
    except (SyntaxError, ValueError):
        return plain


def judge_widths(judge, sources):
    problems = []
    for source in sources:
        for match in re.finditer(r'"(?:\\.|[^"\\])*"', source.said, re.DOTALL):
            for form in re.findall(r"\{\w*:[^\s{};]*\}", spelled(match.group(0))):
                spec = form.split(":", 1)[1]
                if re.search(r"[$*]", spec) or any(int(it) > COLUMNS for it in re.findall(r"\d+", spec)):
                    problems.append(f"{source.name}:{source.line_of(match.start())}: {form}")
    judge.judge(f"what is formatted has the width that it needs, or at most {COLUMNS} columns", problems)


def judge_arrays(judge, sources):
    problems = []
    for source in sources:
        for match in re.finditer(r"(vec!)?\[(?!in\b)[^\[\];]*;\s*([^\[\]]+)\]", source.code):
            length = match.group(2).strip()
            constant = re.search(rf"\bconst {re.escape(length)}: usize = (\w+);", source.code)
            text = (constant.group(1) if constant else length).replace("_", "").removesuffix("usize")
            if not text.isdigit() or int(text) > ELEMENTS:
                problems.append(f"{source.name}:{source.line_of(match.start())}: {source.text_of(match.start())}")
    judge.judge(f"an array has the elements that are listed, or at most {ELEMENTS}", problems)
