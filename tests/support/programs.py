"""Random programs of the language, well typed by the way in which they are made, and arguments for them.

A program may still be refused: for its size, or where an interval says too little of an index or a divisor. For an observer
of profile 2 only public operands are multiplied.
"""

WIDTHS = {"bool": 1, "uint8": 8, "uint16": 16, "uint32": 32}
NUMBERS = ("uint8", "uint16", "uint32")
SUFFIX = {"uint8": "u8", "uint16": "u16", "uint32": ""}
ARITHMETIC = ("+", "-", "*", "&", "|", "^")
SUMS = tuple(sign for sign in ARITHMETIC if sign != "*")
ORDERS = ("<", "<=", ">", ">=")
LENGTHS = (1, 2, 4, 8, 16)


class Variable:
    """A name with its label, its kind, whether it may be assigned to and, of an array, its length."""

    def __init__(self, name, label, kind, mutable, length=None):
        self.name, self.label, self.kind, self.mutable, self.length = name, label, kind, mutable, length


class Procedure:
    """What a caller has to know of a procedure."""

    def __init__(self, name, parameters, result, text, changes_public):
        self.name, self.parameters, self.result, self.text = name, parameters, result, text
        self.changes_public = changes_public


class Writer:
    """Writes one procedure for an observer; `random` decides, `earlier` may be called."""

    def __init__(self, random, earlier, name, profile):
        self.random, self.earlier, self.name, self.profile = random, earlier, name, profile
        self.names = 0
        self.changes_public = False

    def fresh(self):
        self.names += 1
        return f"{self.name}_{self.names}"

    # Expressions: each is written for a label that it may have at most, and a kind.

    def literal(self, kind):
        if kind == "bool":
            return self.random.choice(("true", "false"))
        value = self.random.choice((0, 1, 2, 3, 7, self.random.randrange(2 ** WIDTHS[kind]), 2 ** WIDTHS[kind] - 1))
        return f"{value}{SUFFIX[kind]}"

    def usable(self, scope, label, kind):
        return [v for v in scope if v.kind == kind and (label == "secret" or v.label == "public")]

    def index(self, scope, length, depth):
        """An index below a length: some are so whatever the intervals say, some only if these are good."""
        counters = [v.name for v in scope if v.length is None and v.kind == "uint32" and v.label == "public" and not v.mutable]
        choice = self.random.randrange(5)
        if choice == 0 and counters:
            return self.random.choice(counters)
        if choice == 1:
            return f"({self.expression(scope, 'public', 'uint32', depth - 1)}) % {length}"
        if choice <= 3 and length & (length - 1) == 0:
            return f"({self.expression(scope, 'public', 'uint32', depth - 1)}) & {length - 1}"
        return str(self.random.randrange(length))

    def leaf(self, scope, label, kind, depth):
        variables = self.usable(scope, label, kind)
        if not variables or self.random.random() < 0.25:
            return self.literal(kind)
        variable = self.random.choice(variables)
        if variable.length is None:
            return variable.name
        return f"{variable.name}[{self.index(scope, variable.length, depth)}]"

    def boolean(self, scope, label, depth):
        choice = self.random.randrange(5)
        if choice == 0:
            return f"!({self.expression(scope, label, 'bool', depth - 1)})"
        if choice == 1:
            kind = "bool"
            signs = ("&&", "||", "==", "!=")
        else:
            kind = self.random.choice(NUMBERS)
            signs = ORDERS + ("==", "!=")
        left, right = (self.expression(scope, label, kind, depth - 1) for _ in range(2))
        return f"({left}) {self.random.choice(signs)} ({right})"

    def number(self, scope, label, kind, depth):
        choice = self.random.randrange(8)
        inner = self.expression(scope, label, kind, depth - 1)
        if choice == 0:
            return f"{self.random.choice('~-')}({inner})"
        if choice == 1:
            return f"({inner}) <<< {self.random.randrange(1, WIDTHS[kind])}"
        if choice == 2:
            amount = self.expression(scope, label, "uint32", depth - 1)
            return f"({inner}) {self.random.choice(('<<', '>>'))} ({amount})"
        if choice == 3:
            other = self.random.choice(tuple(WIDTHS))
            return f"{kind}({self.expression(scope, label, other, depth - 1)})"
        if choice == 4 and label == "public":
            divisor = self.random.choice((self.literal(kind), f"(({self.expression(scope, 'public', kind, depth - 1)}) | 1{SUFFIX[kind]})"))
            return f"({inner}) {self.random.choice('/%')} {divisor}"
        other = self.expression(scope, label, kind, depth - 1)
        signs = SUMS if self.profile == 2 and label == "secret" else ARITHMETIC
        return f"({inner}) {self.random.choice(signs)} ({other})"

    def expression(self, scope, label, kind, depth):
        if depth <= 0 or self.random.random() < 0.3:
            return self.leaf(scope, label, kind, depth)
        if self.random.random() < 0.15:
            condition = self.expression(scope, label, "bool", depth - 1)
            one, other = (self.expression(scope, label, kind, depth - 1) for _ in range(2))
            return f"select({condition}, {one}, {other})"
        return self.boolean(scope, label, depth) if kind == "bool" else self.number(scope, label, kind, depth)

    # Calls.

    def argument(self, scope, control, parameter, taken):
        """An argument for a parameter, or None where there is none."""
        if parameter.length is None:
            return self.expression(scope, parameter.label, parameter.kind, 2)
        fitting = [
            v
            for v in scope
            if (v.length, v.kind, v.label) == (parameter.length, parameter.kind, parameter.label)
            and (v.mutable or not parameter.mutable)
            and (v.name not in taken or not (parameter.mutable or taken[v.name]))
        ]
        if not fitting:
            return None
        variable = self.random.choice(fitting)
        taken[variable.name] = taken.get(variable.name, False) or parameter.mutable
        return variable.name

    def call(self, scope, control, results):
        """A call of a procedure with one of these results, and its result; None where there is none to call."""
        fitting = [p for p in self.earlier if p.result in results and not (control == "secret" and p.changes_public)]
        if not fitting:
            return None
        procedure = self.random.choice(fitting)
        taken = {}
        arguments = [self.argument(scope, control, parameter, taken) for parameter in procedure.parameters]
        if None in arguments:
            return None
        self.changes_public |= procedure.changes_public
        return f"{procedure.name}({', '.join(arguments)})", procedure.result

    def right(self, scope, control, label, kind):
        results = [("public", kind)] + ([("secret", kind)] if label == "secret" else [])
        called = self.call(scope, control, results) if self.random.random() < 0.4 else None
        return called[0] if called else self.expression(scope, label, kind, 3)

    # Statements: each is lines, and changes the scope.

    def declaration(self, scope, control):
        label = self.random.choice(("public", "secret", "secret"))
        kind = self.random.choice(tuple(WIDTHS))
        mutable = self.random.random() < 0.6 and not (control == "secret" and label == "public")
        self.changes_public |= mutable and label == "public"
        name = self.fresh()
        mut = "mut " if mutable else ""
        if self.random.random() < 0.3:
            length = self.random.choice(LENGTHS)
            values = ""
            if self.random.random() < 0.5:
                values = " = {" + ", ".join(self.expression(scope, label, kind, 2) for _ in range(length)) + "}"
            scope.append(Variable(name, label, kind, mutable, length))
            return [f"{label} {mut}{kind}[{length}] {name}{values};"]
        line = f"{label} {mut}{kind} {name} = {self.right(scope, control, label, kind)};"
        scope.append(Variable(name, label, kind, mutable))
        return [line]

    def assignment(self, scope, control):
        targets = [v for v in scope if v.mutable and not (control == "secret" and v.label == "public")]
        if not targets:
            return self.declaration(scope, control)
        target = self.random.choice(targets)
        name = target.name
        if target.length is not None:
            name += f"[{self.index(scope, target.length, 2)}]"
        return [f"{name} = {self.right(scope, control, target.label, target.kind)};"]

    def conditional(self, scope, control, depth):
        label = self.random.choice(("public", "secret"))
        inner = "secret" if label == "secret" or control == "secret" else "public"
        lines = [f"if ({self.expression(scope, label, 'bool', 3)}) {{"]
        lines += self.block(list(scope), inner, depth - 1)
        if self.random.random() < 0.6:
            lines += ["} else {"] + self.block(list(scope), inner, depth - 1)
        return lines + ["}"]

    def loop(self, scope, control, depth):
        name = self.fresh()
        low = self.random.randrange(3)
        high = self.random.choice((str(low + self.random.randrange(5)), str(self.random.randrange(6))))
        inner = list(scope) + [Variable(name, "public", "uint32", False)]
        return [f"for (uint32 {name} from {low} to {high}) {{", *self.block(inner, control, depth - 1), "}"]

    def statement(self, scope, control, depth):
        choice = self.random.randrange(10)
        if choice == 0 and depth > 0:
            return self.loop(scope, control, depth)
        if choice <= 2 and depth > 0:
            return self.conditional(scope, control, depth)
        if choice == 3:
            called = self.call(scope, control, [p.result for p in self.earlier])
            if called:
                return [called[0] + ";"]
        return self.declaration(scope, control) if choice <= 6 else self.assignment(scope, control)

    def block(self, scope, control, depth):
        lines = []
        for _ in range(self.random.randrange(1, 4)):
            lines += ["    " + line for line in self.statement(scope, control, depth)]
        return lines

    # Procedures.

    def parameter(self):
        label = self.random.choice(("public", "secret", "secret"))
        kind = self.random.choice(tuple(WIDTHS))
        if self.random.random() < 0.35:
            mutable = self.random.random() < 0.5
            self.changes_public |= mutable and label == "public"
            return Variable(self.fresh(), label, kind, mutable, self.random.choice(LENGTHS))
        return Variable(self.fresh(), label, kind, False)

    def procedure(self, exported):
        parameters = [self.parameter() for _ in range(self.random.randrange(5))]
        result = None
        if self.random.random() < 0.75:
            result = (self.random.choice(("public", "secret")), self.random.choice(tuple(WIDTHS)))
        scope = list(parameters)
        lines = []
        for _ in range(self.random.randrange(1, 6)):
            lines += ["    " + line for line in self.statement(scope, "public", 2)]
        if result:
            lines.append(f"    return {self.expression(scope, result[0], result[1], 3)};")
        head = ("export " if exported else "") + (" ".join(result) if result else "void")
        text = f"{head} {self.name}({', '.join(map(written, parameters))}) {{\n" + "\n".join(lines) + "\n}\n"
        return Procedure(self.name, parameters, result, text, self.changes_public)


def written(parameter):
    if parameter.length is None:
        return f"{parameter.label} {parameter.kind} {parameter.name}"
    return f"{parameter.label} {'mut ' if parameter.mutable else ''}{parameter.kind}[{parameter.length}] {parameter.name}"


def program(random, profile=1):
    """A program's text for an observer, and the parameters of its export."""
    earlier = []
    for number in range(random.randrange(4)):
        earlier.append(Writer(random, earlier, f"p{number}", profile).procedure(False))
    export = Writer(random, earlier, "main", profile).procedure(True)
    return "".join(p.text for p in earlier) + export.text, export.parameters


def value(random, kind):
    most = 2 ** WIDTHS[kind] - 1
    return random.choice((0, 1, most, random.randrange(most + 1), random.randrange(min(most, 9) + 1)))


def arguments(random, parameters):
    """A text for each parameter."""
    return [
        ",".join(str(value(random, p.kind)) for _ in range(1 if p.length is None else p.length)) for p in parameters
    ]


def other_secrets(random, parameters, texts):
    """The same arguments where they are public, others where they are secret."""
    fresh = arguments(random, parameters)
    return [old if p.label == "public" else new for p, old, new in zip(parameters, texts, fresh)]
