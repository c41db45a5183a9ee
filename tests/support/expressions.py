"""Deep expressions over words and arrays, each with what it gives: its text, and a function from what variables hold.

They read the parameters of a procedure f(public uint32 p, public uint32 q, secret uint32 x, secret uint32 y, secret bool s,
secret mut uint32[8] a, public uint32[8] t).
"""

WORD = 2**32

# What tokens may raise the count of nesting by where an expression of a body begins, less what a leaf takes.
ROOM = 60


def name(text):
    return text, lambda env: env[text]


def number(value):
    return str(value), lambda env: value


def binary(sign, left, right):
    """Both operands, the right one in brackets."""
    make = SIGNS[sign]
    return f"{left[0]} {sign} ({right[0]})", lambda env: make(left[1](env), right[1](env)) % WORD


SIGNS = {
    "+": lambda a, b: a + b,
    "-": lambda a, b: a - b,
    "*": lambda a, b: a * b,
    "&": lambda a, b: a & b,
    "|": lambda a, b: a | b,
    "^": lambda a, b: a ^ b,
    "<<": lambda a, b: a << b % 32,
    ">>": lambda a, b: a >> b % 32,
}
ORDERS = {
    "<": lambda a, b: a < b,
    "<=": lambda a, b: a <= b,
    ">": lambda a, b: a > b,
    ">=": lambda a, b: a >= b,
    "==": lambda a, b: a == b,
    "!=": lambda a, b: a != b,
}


def ordered(sign, left, right):
    make = ORDERS[sign]
    return f"uint32({left[0]} {sign} ({right[0]}))", lambda env: int(make(left[1](env), right[1](env)))


def chosen(condition, first, second):
    return (
        f"select({condition[0]}, {first[0]}, {second[0]})",
        lambda env: first[1](env) if condition[1](env) else second[1](env),
    )


def less(left, right):
    return f"({left[0]}) < {right[0]}", lambda env: left[1](env) < right[1](env)


def element(array, index):
    return f"{array}[({index[0]}) % 8]", lambda env: env[array][index[1](env) % 8]


def quotient(left, right):
    return f"{left[0]} / (({right[0]}) % 7 + 1)", lambda env: left[1](env) // (right[1](env) % 7 + 1)


def remainder(left, right):
    return f"{left[0]} % ((({right[0]}) & 15) + 1)", lambda env: left[1](env) % ((right[1](env) & 15) + 1)


def prefixed(sign, operand):
    make = {"~": lambda a: WORD - 1 - a, "-": lambda a: -a}[sign]
    return f"{sign}({operand[0]})", lambda env: make(operand[1](env)) % WORD


def rotated(operand, amount):
    def rotated(a):
        return (a << amount | a >> 32 - amount) % WORD

    return f"({operand[0]}) <<< {amount}", lambda env: rotated(operand[1](env))


def cut(kind, operand):
    least = {"uint8": 2**8, "uint16": 2**16}[kind]
    return f"uint32({kind}({operand[0]}))", lambda env: operand[1](env) % least


# One level around an expression, and by how much it raises the count for it: a value waits at each level.
SPINES = {
    "sums": (2, lambda inner: binary("+", name("x"), inner)),
    "differences": (2, lambda inner: binary("-", name("x"), inner)),
    "products and exclusive ors": (4, lambda inner: binary("^", name("y"), binary("*", name("x"), inner))),
    "shifts": (2, lambda inner: binary(">>", name("x"), inner)),
    "elements": (4, lambda inner: binary("+", name("p"), element("t", inner))),
    "elements of a secret array": (2, lambda inner: binary("-", element("a", number(3)), inner)),
    "quotients": (4, lambda inner: quotient(name("p"), inner)),
    "remainders": (5, lambda inner: remainder(name("q"), inner)),
    "choices": (1, lambda inner: chosen(name("s"), name("x"), inner)),
    "first choices": (1, lambda inner: chosen(name("s"), inner, name("y"))),
    "conditions": (2, lambda inner: chosen(less(inner, name("y")), name("x"), name("p"))),
    "orders": (3, lambda inner: ordered("<=", name("x"), inner)),
    "all of them": (
        13,
        lambda inner: binary(
            "+", name("p"), quotient(name("q"), element("t", binary("*", name("p"), chosen(less(name("p"), name("q")), name("q"), inner))))
        ),
    ),
}


def spine(wrap, depth):
    """So many levels; nothing where nesting does not allow them."""
    room, level = wrap
    if room * depth > ROOM:
        return None, None
    inner = name("q")
    for _ in range(depth):
        inner = level(inner)
    return inner


def leaf(chance, names):
    choice = chance.randrange(8)
    if choice == 0:
        return number(chance.choice((0, 1, 5, 255, 4_096, WORD - 1, chance.randrange(WORD))))
    if choice == 1:
        return element("a" if "x" in names else "t", number(chance.randrange(8)))
    return name(chance.choice(names))


def public(chance, room):
    """An expression of public values: all operators, most often with what is deep on the right."""
    if room < 6 or chance.random() < 0.02:
        return leaf(chance, ("p", "q"))
    left = public(chance, 8) if chance.random() < 0.1 and room > 8 else leaf(chance, ("p", "q"))
    left = (f"({left[0]})", left[1])
    choice = chance.randrange(8)
    if choice == 0:
        return quotient(left, public(chance, room - 4))
    if choice == 1:
        return remainder(left, public(chance, room - 5))
    if choice == 2:
        return element("t", public(chance, room - 3))
    if choice == 3:
        return chosen(less(leaf(chance, ("p", "q")), leaf(chance, ("p", "q"))), left, public(chance, room - 2))
    return binary(chance.choice(tuple(SIGNS)), left, public(chance, room - 2))


def secret(chance, room):
    """An expression of which some values are secret; indices and operands of divisions are public."""
    if room < 6 or chance.random() < 0.02:
        return leaf(chance, ("x", "y", "p"))
    left = secret(chance, 8) if chance.random() < 0.1 and room > 8 else leaf(chance, ("x", "y", "p"))
    left = (f"({left[0]})", left[1])
    choice = chance.randrange(14)
    if choice == 0:
        return chosen(less(secret(chance, room - 3), left), leaf(chance, ("x", "q")), left)
    if choice <= 2:
        return chosen(name("s"), left, secret(chance, room - 1))
    if choice == 3:
        return binary("^", left, element("a", public(chance, room - 5)))
    if choice == 4:
        return ordered(chance.choice(tuple(ORDERS)), left, secret(chance, room - 3))
    if choice == 5:
        return prefixed(chance.choice("~-"), secret(chance, room - 2))
    if choice == 6:
        return rotated(secret(chance, room - 1), chance.randrange(1, 32))
    if choice == 7:
        return cut(chance.choice(("uint8", "uint16")), secret(chance, room - 2))
    if choice == 8:
        return binary("+", left, public(chance, room - 2))
    return binary(chance.choice(tuple(SIGNS)), left, secret(chance, room - 2))


def body(chance, head):
    """A procedure with deep expressions in many places, and what it gives and leaves."""
    word, index, right, asked, added, else_index, else_right, last = (
        make(chance, ROOM - 8) for make in (secret, public, secret, secret, secret, public, secret, secret)
    )
    argument, decided, low, high = (public(chance, ROOM - 8) for _ in range(4))
    text = (
        "secret uint32 g(secret uint32 v, public uint32 w) { return v ^ w; }\n"
        + head
        + f"secret mut uint32 z = g({word[0]}, {argument[0]});\n"
        + f"a[({index[0]}) % 8] = {right[0]};\n"
        + f"if (({asked[0]}) < y) {{ z = z + ({added[0]}); }} else {{ a[({else_index[0]}) % 8] = {else_right[0]}; }}\n"
        + f"if (({decided[0]}) > q) {{ z = z - 1; }}\n"
        + f"for (uint32 i from ({low[0]}) % 3 to ({high[0]}) % 9) {{ z = z * 3 + i; }}\n"
        + f"return z - ({last[0]});\n}}"
    )

    def meaning(env):
        env = {**env, "a": list(env["a"])}
        z = word[1](env) ^ argument[1](env)
        at = index[1](env) % 8
        env["a"][at] = right[1](env)
        if asked[1](env) < env["y"]:
            z = (z + added[1](env)) % WORD
        else:
            at = else_index[1](env) % 8
            env["a"][at] = else_right[1](env)
        if decided[1](env) > env["q"]:
            z = (z - 1) % WORD
        for i in range(low[1](env) % 3, high[1](env) % 9):
            z = (z * 3 + i) % WORD
        return (z - last[1](env)) % WORD, env

    return text, meaning


def word_of(chance):
    return chance.choice((0, 1, 2, 7, 31, 255, WORD - 1, chance.randrange(WORD), chance.randrange(WORD)))


def environment(chance):
    """What the parameters hold."""
    words = {text: word_of(chance) for text in ("p", "q", "x", "y")}
    arrays = {text: [word_of(chance) for _ in range(8)] for text in ("a", "t")}
    return {**words, "s": chance.randrange(2), **arrays}


def other_secrets(chance, env):
    """The same where it is public."""
    return {**environment(chance), **{text: env[text] for text in ("p", "q", "t")}}


def arguments(env):
    words = [str(env[text]) for text in ("p", "q", "x", "y", "s")]
    return words + [",".join(map(str, env[text])) for text in ("a", "t")]
