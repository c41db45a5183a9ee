"""Reads sources in Rattle: code without comments and contracts, what a text may not have so that this is exact, functions, calls."""

import functools
import os
import re

# A comment to the end of its line, a string, or a character.
PIECES = re.compile(r'//[^\n]*|"(?:\\.|[^"\\])*"|\'(?:\\u\{[^}\'\n]*\}|\\x[0-9a-fA-F]*|\\.|[^\\\'\n])\'', re.DOTALL)
# What would hide code from a reader who knows these pieces alone, or make code of what is no code.
HIDING = {
    "a block comment": r"/\*",
    "a raw string": r'\b(?:b|c)?r#*"',
    "a raw name": r"\br#\w",
    "a text made of texts": r"\b(?:concat|stringify|include(?:_str|_bytes)?)!",
    "a macro of its own": r"\bmacro_rules!",
    "code that is not safe": r"\bunsafe\b",
    "a file by another path": r"#\[\s*(?:cfg_attr\([^\]]*)?path\b",
    "a path with blanks": r"\w\s+::|::\s+[\w{<*]",
}
BRACE = re.compile(r"[{}]")


class Source:
    """A file's code: comments, contracts and ghost items are blank, so that each place keeps its line."""

    def __init__(self, name, text):
        self.name = name
        self.whole = text
        self.functions = None
        self.said = without_comments(self.whole, False)
        self.code = without_contracts(without_comments(self.whole, True))

    def line_of(self, at):
        return self.code.count("\n", 0, at) + 1

    def text_of(self, at):
        """The line there, as it is written, without blanks around it."""
        begin = self.whole.rfind("\n", 0, at) + 1
        return self.whole[begin : self.whole.find("\n", at)].strip()


def without_comments(text, strings_too):
    """The text with comments blank, and the insides of strings where that is asked for."""

    def blank(match):
        found = match.group(0)
        if found.startswith("//"):
            return " " * len(found)
        if not strings_too:
            return found
        return found[0] + re.sub(r"[^\n]", " ", found[1:-1]) + found[-1]

    return PIECES.sub(blank, text)


def hidden(text):
    """Places of what would hide code, each with what it is. Each is the first of its kind that the pieces before show."""
    token = re.compile("|".join([f"(?P<piece>{PIECES.pattern})"] + [f"(?P<k{i}>{form})" for i, form in enumerate(HIDING.values())]), re.DOTALL)
    kinds = list(HIDING)
    for match in token.finditer(text):
        if match.lastgroup != "piece":
            yield match.start(), kinds[int(match.lastgroup[1:])]


def closing(text, at):
    """The place after the brace that closes the one there."""
    depth = 0
    for brace in BRACE.finditer(text, at):
        depth += 1 if brace.group(0) == "{" else -1
        if depth == 0:
            return brace.end()
    return len(text)


def without_contracts(text):
    """The code with clauses and ghost items blank."""
    begin = re.compile(r"^ *(?:(?:ensures|requires)(?: \w+)? \{|ghost use\b[^;]*;|(?:pub )?ghost \w+(?: =|:) \{)", re.MULTILINE)
    at = 0
    while match := begin.search(text, at):
        is_use = match.group(0).endswith(";")
        if is_use:
            end = match.end()
        else:
            end = closing(text, match.end() - 1)
        cut = re.sub(r"[^\n]", " ", text[match.start() : end])
        text = text[: match.start()] + cut + text[end:]
        at = end
    return text


def is_example(name):
    """Whether a crate, or a file of one, is of examples."""
    return re.search(r"(^|_)examples$", name.split(os.sep)[0]) is not None


def owner_of(code, at):
    """The type whose function stands there, or nothing."""
    for match in re.finditer(r"^(?:impl|pub trait)\b(?:<[^{;]*?>)? *(?:[\w:<>, ]+ for )?(\w+)[^{;]*\{", code[:at], re.MULTILINE):
        if closing(code, match.end() - 1) > at:
            return match.group(1)
    return None


class Function:
    """A function: its name, its clauses, what it answers, and its body, which a trait may leave out."""

    def __init__(self, source, match):
        self.source = source
        self.name = match.group(1)
        self.at = match.start()
        code = source.code
        self.owner = owner_of(code, self.at)
        self.crate = source.name.split("/")[0]
        self.is_private = not code[code.rfind("\n", 0, self.at) + 1 : self.at].strip() and not is_of_trait(code, self.at)
        ends = [place for place in (code.find("{", match.end()), code.find(";", match.end())) if place >= 0]
        body = min(ends)
        self.body_at = body
        self.head = code[match.start() : body]
        self.answer = self.head.split("->", 1)[1] if "->" in self.head else ""
        self.body = code[body : closing(code, body)] if code[body] == "{" else None
        contract = source.whole[match.start() : body]
        self.clauses = {
            clause.group(1): contract[clause.end() - 1 : closing(contract, clause.end() - 1)]
            for clause in re.finditer(r"\bensures (\w*) ?\{", contract)
        }


def is_of_trait(code, at):
    """Whether a function stands in a trait, or in what a type makes of one: who has the trait may call it."""
    blocks = [match for match in re.finditer(r"^(?:pub )?(impl|trait)\b[^{]*\{", code, re.MULTILINE) if match.start() < at]
    if not blocks or closing(code, blocks[-1].end() - 1) < at:
        return False
    return blocks[-1].group(1) == "trait" or " for " in blocks[-1].group(0)


def functions(sources):
    for source in sources:
        if source.functions is None:
            source.functions = [Function(source, match) for match in re.finditer(r"\bfn (\w+)", source.code)]
        yield from source.functions


def dependencies(top):
    """Of each crate all crates that it stands on, directly or not."""
    with open(os.path.join(top, "crates.txt"), encoding="utf-8") as file:
        lines = re.findall(r"^(\w+):(.*)$", file.read(), re.MULTILINE)
    found = {}
    for crate, named in lines:
        direct = [it for it in named.split() if it in found]
        found[crate] = set(direct).union(*(found[it] for it in direct))
    return found


def owners_for(crate, below, callees):
    """The types of these functions by their names, of those that a crate can call: its own, and public ones below it."""
    owners = {}
    for it in callees:
        if it.crate == crate or (it.crate in below and not it.is_private):
            owners.setdefault(it.name, set()).add(it.owner)
    return owners


CALL = re.compile(r"(?:\b([A-Z]\w*)(?:::<[^>]*>)?::|(\.))?\b(\w+)(?:::<[^>]*>)?\(")


def calls_one(function, part, owners):
    """Whether a part of a function's body calls one of these names: by its type where the call names one, else of any type."""
    for owner, dot, name in calls_in(part):
        of = owners.get(name)
        if of is None:
            continue
        if owner == "Self":
            owner = function.owner
        if (dot and of - {None}) or (owner and owner in of) or (not dot and not owner and None in of):
            return True
    return False


@functools.lru_cache(maxsize=None)
def calls_in(part):
    """The calls in a part of code: the type that each names, whether it is one of a value's, and its name."""
    return sorted(set(CALL.findall(part)))
