"""A source of the language as C: as its author would write it, or with masks in place of branches on secrets.

Sources are read that `factc check` accepts; nothing is checked here.
"""

import re

TOKEN = re.compile(r"\s+|//[^\n]*|(\w+|<<<|<<|>>|<=|>=|==|!=|&&|\|\||.)", re.S)
LEVELS = [["||"], ["&&"], ["==", "!=", "<", "<=", ">", ">="], ["|"], ["^"], ["&"], ["<<", ">>", "<<<"], ["+", "-"], ["*", "/", "%"]]
BITS = {"uint8": 8, "uint16": 16, "uint32": 32}
C_TYPES = {"bool": "bool", "uint8": "uint8_t", "uint16": "uint16_t", "uint32": "uint32_t"}
COMPARISONS = ("==", "!=", "<", "<=", ">", ">=")
# Names that C has for something else.
TAKEN = {"double", "short", "int", "long", "char", "float", "signed", "unsigned", "static", "const", "auto", "register", "end"}


class Variable:
    """What a name stands for: the kind and the label of its words, and its length where it is an array."""

    def __init__(self, kind, secret, mutable=False, length=None):
        self.kind, self.secret, self.mutable, self.length = kind, secret, mutable, length


class Procedure:
    def __init__(self, name, exported, result, parameters, body):
        self.name, self.exported, self.result, self.parameters, self.body = name, exported, result, parameters, body


def c_name(name):
    return name + "_" if name in TAKEN else name


class Reader:
    """Reads a source into procedures, whose statements and expressions are tuples with their construct first."""

    def __init__(self, text):
        self.tokens = [match.group(1) for match in TOKEN.finditer(text) if match.group(1)]
        self.at = 0

    def next(self, expected=None):
        token = self.tokens[self.at]
        assert expected in (None, token), f"{expected} and not {token}"
        self.at += 1
        return token

    def is_next(self, *tokens):
        return self.at < len(self.tokens) and self.tokens[self.at] in tokens

    def takes(self, token):
        if self.is_next(token):
            self.at += 1
            return True
        return False

    def program(self):
        procedures = []
        while self.at < len(self.tokens):
            procedures.append(self.procedure())
        return procedures

    def procedure(self):
        exported = self.takes("export")
        result = None if self.takes("void") else (self.next(), self.next())[1]
        name = self.next()
        self.next("(")
        parameters = []
        while not self.takes(")"):
            parameters.append(self.parameter())
            self.takes(",")
        return Procedure(name, exported, result, parameters, self.block())

    def parameter(self):
        secret, mutable = self.next() == "secret", self.takes("mut")
        kind, length = self.next(), None
        if self.takes("["):
            length = int(self.next())
            self.next("]")
        return self.next(), Variable(kind, secret, mutable, length)

    def block(self):
        self.next("{")
        statements = []
        while not self.takes("}"):
            statements.append(self.statement())
        return statements

    def statement(self):
        if self.takes("return"):
            value = self.expression()
            self.next(";")
            return "return", value
        if self.takes("if"):
            return self.conditional()
        if self.takes("for"):
            self.next("(")
            self.next("uint32")
            counter = self.next()
            self.next("from")
            low = self.expression()
            self.next("to")
            high = self.expression()
            self.next(")")
            return "for", counter, low, high, self.block()
        return self.declaration() if self.is_next("public", "secret") else self.assignment()

    def conditional(self):
        self.next("(")
        condition = self.expression()
        self.next(")")
        accepted, otherwise = self.block(), []
        if self.takes("else"):
            otherwise = [self.conditional()] if self.takes("if") else self.block()
        return "if", condition, accepted, otherwise

    def declaration(self):
        name, variable = self.parameter()
        values = None
        if self.takes("="):
            if variable.length is not None:
                self.next("{")
                values = [self.expression()]
                while self.takes(","):
                    values.append(self.expression())
                self.next("}")
            else:
                values = self.right_side()
        self.next(";")
        return "declare", name, variable, values

    def assignment(self):
        name = self.next()
        if self.is_next("("):
            call = self.call(name)
            self.next(";")
            return "call", call
        index = None
        if self.takes("["):
            index = self.expression()
            self.next("]")
        self.next("=")
        value = self.right_side()
        self.next(";")
        return "assign", name, index, value

    def right_side(self):
        if self.tokens[self.at + 1] == "(" and re.match(r"[A-Za-z_]", self.tokens[self.at]) and self.tokens[self.at] not in (*BITS, "select"):
            return self.call(self.next())
        return self.expression()

    def call(self, name):
        self.next("(")
        arguments = []
        while not self.takes(")"):
            arguments.append(self.expression())
            self.takes(",")
        return "called", name, arguments

    def expression(self, level=0):
        if level == len(LEVELS):
            return self.operand()
        left = self.expression(level + 1)
        while self.is_next(*LEVELS[level]):
            operator = self.next()
            if operator == "<<<":
                left = ("rotate", left, int(self.next(), 0))
            else:
                left = ("binary", operator, left, self.expression(level + 1))
        return left

    def operand(self):
        token = self.next()
        if token == "(":
            inside = self.expression()
            self.next(")")
            return inside
        if token in "!~-":
            return "prefix", token, self.operand()
        if token in ("true", "false"):
            return "truth", token
        if token[0].isdigit():
            number = re.fullmatch(r"(0x[0-9a-fA-F]+|\d+)(?:u(\d+))?", token)
            return "number", int(number.group(1), 0) if "x" in token else int(number.group(1)), "uint" + (number.group(2) or "32")
        if token == "select" or token in BITS:
            inside = self.call(token)[2]
            return ("select", *inside) if token == "select" else ("convert", token, inside[0])
        if self.takes("["):
            index = self.expression()
            self.next("]")
            return "element", token, index
        return "name", token


class Writer:
    """Writes procedures as C."""

    def __init__(self, procedures, masked):
        self.procedures = {procedure.name: procedure for procedure in procedures}
        self.masked, self.lines, self.names, self.masks = masked, [], {}, 0
        self.wanted = []

    def text(self):
        written = []
        for procedure in self.procedures.values():
            written.append(self.procedure(procedure, False))
        done, at = {}, 0
        while at < len(self.wanted):
            name = self.wanted[at]
            if name not in done:
                done[name] = self.procedure(self.procedures[name], True)
            at += 1
        declared = [self.head(self.procedures[name], True) + ";" for name in done]
        return "\n".join(["#include <stdbool.h>", "#include <stdint.h>", *declared, *written, *done.values(), ""])

    def head(self, procedure, under):
        def parameter(name, variable):
            kind = C_TYPES[variable.kind]
            if variable.length is None:
                return f"{kind} {c_name(name)}"
            return f"{'' if variable.mutable else 'const '}{kind} {c_name(name)}[{variable.length}]"

        parameters = [parameter(*it) for it in procedure.parameters]
        if under:
            parameters.insert(0, "uint32_t mask_0")
        result = "void" if procedure.result is None else C_TYPES[procedure.result]
        kept = "" if procedure.exported and not under else "static "
        return f"{kept}{result} {c_name(procedure.name)}{'_under' if under else ''}({', '.join(parameters) or 'void'})"

    def procedure(self, procedure, under):
        self.lines, self.names, self.masks = [], dict(procedure.parameters), 1
        self.lines.append(self.head(procedure, under) + " {")
        self.block(procedure.body, "mask_0" if under else None)
        self.lines.append("}")
        return "\n".join(self.lines)

    def block(self, statements, mask):
        names = dict(self.names)
        for statement in statements:
            getattr(self, "put_" + statement[0])(mask, *statement[1:])
        self.names = names

    def put_return(self, mask, value):
        self.lines.append(f"return {self.value(value)};")

    def put_declare(self, mask, name, variable, values):
        kind = C_TYPES[variable.kind]
        if variable.length is None:
            self.lines.append(f"{kind} {c_name(name)} = {self.right(values, mask)};")
        else:
            self.lines.append(f"{kind} {c_name(name)}[{variable.length}];")
            if values is None:
                self.lines.append(f"for (uint32_t k_ = 0; k_ < {variable.length}; k_++) {c_name(name)}[k_] = 0;")
            for index, value in enumerate(values or []):
                self.lines.append(f"{c_name(name)}[{index}] = {self.value(value)};")
        self.names[name] = variable

    def put_assign(self, mask, name, index, value):
        variable = self.names[name]
        target = c_name(name) if index is None else f"{c_name(name)}[{self.value(index)}]"
        right = self.right(value, mask)
        if mask is None or not variable.secret:
            self.lines.append(f"{target} = {right};")
        elif variable.kind == "bool":
            self.lines.append(f"{target} = {target} ^ (({target} ^ {right}) & ({mask} & 1));")
        else:
            self.lines.append(f"{target} = ({C_TYPES[variable.kind]})({target} ^ (({target} ^ {right}) & {mask}));")

    def put_call(self, mask, call):
        self.lines.append(self.right(call, mask) + ";")

    def put_for(self, mask, counter, low, high, body):
        name, end = c_name(counter), f"end_{counter}"
        self.lines.append(f"for (uint32_t {name} = {self.value(low)}, {end} = {self.value(high)}; {name} < {end}; {name}++) {{")
        names = dict(self.names)
        self.names[counter] = Variable("uint32", False)
        self.block(body, mask)
        self.names = names
        self.lines.append("}")

    def put_if(self, mask, condition, accepted, otherwise):
        if not self.masked or not self.is_secret(condition):
            self.lines.append(f"if ({self.value(condition)}) {{")
            self.block(accepted, mask)
            if otherwise:
                self.lines.append("} else {")
                self.block(otherwise, mask)
            self.lines.append("}")
            return
        one, other = f"mask_{self.masks}", f"mask_{self.masks + 1}"
        self.masks += 2
        within = "" if mask is None else f" & {mask}"
        self.lines.append(f"{{ const uint32_t {one} = -(uint32_t){self.value(condition)}{within};")
        if otherwise:
            self.lines.append(f"const uint32_t {other} = ~{one}{within};")
        self.lines.append("{")
        self.block(accepted, one)
        self.lines.append("}")
        if otherwise:
            self.lines.append("{")
            self.block(otherwise, other)
            self.lines.append("}")
        self.lines.append("}")

    def right(self, value, mask):
        if value[0] != "called":
            return self.value(value)
        arguments = [self.value(argument) for argument in value[2]]
        if mask is None:
            return f"{c_name(value[1])}({', '.join(arguments)})"
        self.wanted.append(value[1])
        return f"{c_name(value[1])}_under({', '.join([mask, *arguments])})"

    def kind(self, value):
        """The kind of an expression's value."""
        construct = value[0]
        if construct in ("number", "convert"):
            return value[2] if construct == "number" else value[1]
        if construct in ("name", "element"):
            return self.names[value[1]].kind
        if construct == "truth" or (construct == "binary" and value[1] in (*COMPARISONS, "&&", "||")):
            return "bool"
        return self.kind(value[2] if construct in ("binary", "prefix", "select") else value[1])

    def is_secret(self, value):
        construct = value[0]
        if construct in ("name", "element"):
            return self.names[value[1]].secret
        return any(self.is_secret(part) for part in value[1:] if isinstance(part, tuple))

    def value(self, value):
        return getattr(self, "write_" + value[0])(*value[1:])

    def write_number(self, number, kind):
        return f"{number}u" if kind == "uint32" else f"({C_TYPES[kind]}){number}u"

    def write_truth(self, name):
        return name

    def write_name(self, name):
        return c_name(name)

    def write_element(self, name, index):
        return f"{c_name(name)}[{self.value(index)}]"

    def write_prefix(self, operator, operand):
        return f"({C_TYPES[self.kind(operand)]})({operator}{self.value(operand)})"

    def write_convert(self, kind, operand):
        return f"({C_TYPES[kind]}){self.bracketed(operand)}"

    def write_rotate(self, operand, amount):
        kind, word = self.kind(operand), f"(uint32_t){self.bracketed(operand)}"
        return f"({C_TYPES[kind]})({word} << {amount} | {word} >> {BITS[kind] - amount})"

    def write_binary(self, operator, left, right):
        one, other = self.bracketed(left), self.bracketed(right)
        if operator in ("<<", ">>"):
            near = right[0] == "number" and right[1] < 32
            amount = other if near else f"({other} & 31)"
            return f"({C_TYPES[self.kind(left)]})((uint32_t){one} {operator} {amount})"
        if operator in COMPARISONS:
            return f"({one} {operator} {other})"
        if operator in ("&&", "||"):
            return f"({one} {operator[0] if self.masked else operator} {other})"
        if operator == "*":
            return f"({C_TYPES[self.kind(left)]})((uint32_t){one} * {other})"
        return f"({C_TYPES[self.kind(left)]})({one} {operator} {other})"

    def write_select(self, condition, accepted, otherwise):
        one, other, kind = self.bracketed(accepted), self.bracketed(otherwise), C_TYPES[self.kind(accepted)]
        if not self.masked or not self.is_secret(condition):
            return f"({self.bracketed(condition)} ? {one} : {other})"
        return f"({kind})({other} ^ (({one} ^ {other}) & -(uint32_t){self.bracketed(condition)}))"

    def bracketed(self, value):
        return f"({self.value(value)})"


def c_of_source(text, masked):
    """The source as C, and its exported procedure."""
    procedures = Reader(text).program()
    export = next(procedure for procedure in procedures if procedure.exported)
    return Writer(procedures, masked).text(), export
