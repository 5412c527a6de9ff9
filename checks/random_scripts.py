"""Random scripts of integers, texts, names, operators, comparisons, `not`, assignments, `if`, `while` and `print`.

Most operations fit their operands, and loops end by a counter that nothing else assigns. A few operations don't fit: such a script
ends with an uncaught exception, or at an integer beyond 128 bits.
"""
import random

NUMBERS = ["a", "b", "c", "d", "n"]
TEXTS = ["s", "t", "name"]
EDGES = [2**31, 2**32 - 1, 2**63 - 1, 2**64, 2**100, 2**126, 2**127 - 1]
LETTERS = ["", "a", "b", "ab", "Z", "zebra", "0", " ", "é", "漢", "😀", "it's", 'q"q', "\\n", "\\t", "\\x41", "\\u00df"]
ARITHMETIC = ["+"] * 5 + ["-"] * 4 + ["*"] * 3 + ["//", "//", "%", "%", "%", "&", "|", "^"]
COMPARISONS = ["<", ">", "<=", ">=", "==", "!="]


class Writer:
    def __init__(self, seed):
        self.random = random.Random(seed)
        self.lines = []
        self.counters = 0
        self.bound = set()
        self.used = set()

    def chance(self, part):
        return self.random.random() < part

    def pick(self, *things):
        return self.random.choice(things)

    # Expressions: a text, and whether it binds less than an operator's operand has to

    def number_literal(self):
        n = self.random.choice(EDGES) if self.chance(0.05) else self.random.randrange(10 ** self.random.randrange(1, 6))
        return self.random.choice([str, str, str, str, hex, oct, bin, "{:_}".format])(n)

    def text_literal(self):
        parts = [self.random.choice(LETTERS) for _ in range(self.random.randrange(3))]
        quote = self.pick('"', "'", '"""')
        inner = "".join(parts).replace(quote[0], "")
        literal = quote + inner + quote
        return literal + self.pick("", "", "", ' "!"')

    def name(self, names):
        x = self.random.choice(names)
        self.used.add(x)
        return x

    def wrapped(self, part, always=False):
        text, loose = part
        return f"({text})" if loose or always else text

    # an operand of an arithmetic operator: brackets where it needs them, and sometimes where not
    def operand(self, part):
        text, loose = part
        return f"({text})" if loose == 2 or loose == 1 and self.chance(0.6) else text

    def number(self, depth):
        if depth == 0 or self.chance(0.25):
            return (self.name(NUMBERS), 0) if self.chance(0.6) else (self.number_literal(), 0)
        kind = self.random.randrange(12)
        if kind < 7:
            left, right = self.operand(self.value(depth - 1, NUMBERS)), self.operand(self.value(depth - 1, NUMBERS))
            sign = self.random.choice(ARITHMETIC)
            if sign in ("//", "%") and self.chance(0.9):
                right = self.pick("2", "3", "7", "10", "-3", "1000", "True")
            if self.chance(0.05):
                return (f"({left} {sign}\n        {right})", 0)
            return (f"{left} {sign} {right}", 1)
        if kind == 7:
            return (f"{self.operand(self.number(depth - 1))} ** {self.pick('0', '1', '2', '3', '2', '3', '-1' if self.chance(0.1) else '2')}", 1)
        if kind == 8:
            count = self.pick("0", "1", "5", "31", "-1" if self.chance(0.1) else "2")
            return (f"{self.operand(self.number(depth - 1))} {self.pick('<<', '>>', '>>')} {count}", 1)
        if kind == 9:
            return (f"{self.pick('-', '-', '+', '~')}{self.operand(self.number(depth - 1))}", 1)
        if kind == 10:
            return self.test(depth - 1)
        return (f"{self.operand(self.number(depth - 1))} % {self.pick('7', '100', '1000003')}", 1)

    def text(self, depth):
        if depth == 0 or self.chance(0.4):
            return (self.name(TEXTS), 0) if self.chance(0.5) else (self.text_literal(), 0)
        if self.chance(0.7):
            return (f"{self.operand(self.value(depth - 1, TEXTS))} + {self.operand(self.value(depth - 1, TEXTS))}", 1)
        count = self.pick("0", "1", "2", "3", "-1", "True")
        text = self.operand(self.text(depth - 1))
        return (f"{count} * {text}" if self.chance(0.3) else f"{text} * {count}", 1)

    def test(self, depth):
        kind = self.random.randrange(10)
        if kind < 5:
            names = self.pick(NUMBERS, NUMBERS, TEXTS)
            left, right = self.value(depth, names), self.value(depth, names)
            return (f"{self.operand(left)} {self.random.choice(COMPARISONS)} {self.operand(right)}", 2)
        if kind == 5:
            return (f"{self.operand(self.any(depth))} {self.pick('==', '!=')} {self.operand(self.any(depth))}", 2)
        if kind == 6:
            return (f"{self.operand(self.any(depth))} {self.pick('is', 'is not')} {self.pick('None', 'None', 'True', 'False')}", 2)
        if kind == 7:
            return (f"not {self.pick(self.any, self.test)(depth)[0]}" if depth else "True", 2)
        return (self.pick("True", "False"), 0) if kind == 8 else self.number(depth)

    def any(self, depth):
        kind = self.random.randrange(10)
        if kind < 5:
            return self.number(depth)
        if kind < 8:
            return self.text(depth)
        return (self.pick("None", "True", "False"), 0) if kind < 9 or depth == 0 else self.test(depth - 1)

    # a value of these names' kind, with few exceptions
    def value(self, depth, names):
        if self.chance(0.008):
            return self.any(depth)
        return self.number(depth) if names is NUMBERS else self.text(depth)

    def small(self, depth):
        return f"({self.number(depth)[0]}) % {self.pick('1000', '99991', '2 ** 40')}" if self.chance(0.7) else self.number(depth)[0]

    # Statements

    def put(self, level, line):
        self.lines.append("    " * level + line)

    def bind(self, x):
        self.bound.add(x)
        return x

    def simple(self):
        kind = self.random.randrange(20)
        if kind < 7:
            return f"print({self.any(3)[0]})"
        if kind < 11:
            return f"{self.bind(self.random.choice(NUMBERS))} = {self.small(3)}"
        if kind < 13:
            text = self.text(2)[0]
            return f"{self.bind(self.random.choice(TEXTS))} = {text}"
        if kind == 13:
            names = self.random.sample(NUMBERS, self.random.randrange(2, 4))
            value = self.small(2)
            return " = ".join([*map(self.bind, names), value])
        if kind < 17:
            x = self.bind(self.random.choice(NUMBERS))
            sign = self.random.choice(ARITHMETIC)
            value = self.pick("2", "3", "-7", "10") if sign in ("//", "%") else self.value(2, NUMBERS)[0]
            return f"{x} {sign}= {value}"
        if kind == 17:
            return f"{self.bind(self.random.choice(TEXTS))} {self.pick('+= ' + self.value(1, TEXTS)[0], '*= ' + self.pick('1', '2', '0'))}"
        if kind == 18:
            return "pass"
        return self.any(2)[0]

    def test_line(self, head):
        return f"{head} {self.pick(self.test, self.test, self.any)(2)[0]}:"

    def block(self, level, depth, loop):
        for _ in range(self.random.randrange(1, 4)):
            self.statement(level, depth, loop)

    def statement(self, level, depth, loop):
        kind = self.random.randrange(14)
        if kind < 2 and depth:
            self.put(level, self.test_line("if"))
            self.block(level + 1, depth - 1, loop)
            while self.chance(0.4):
                self.put(level, self.test_line("elif"))
                self.block(level + 1, depth - 1, loop)
            if self.chance(0.5):
                self.put(level, "else:")
                self.block(level + 1, depth - 1, loop)
        elif kind < 4 and depth:
            self.turns(level, depth)
        elif kind == 4 and loop:
            self.put(level, f"if {self.test(2)[0]}: {self.pick('break', 'continue')}")
        elif kind == 5 and self.chance(0.3):
            self.put(level, f"# {self.pick('a comment', '', 'if x:')}")
            self.put(level, self.simple())
        elif kind == 6:
            self.put(level, f"{self.simple()}; {self.simple()}")
        else:
            self.put(level, self.simple())

    def turns(self, level, depth):
        counter = f"turn{self.counters}"
        self.counters += 1
        last = self.random.randrange(1, 8)
        self.put(level, f"{counter} = 0")
        if self.chance(0.3):
            self.put(level, f"while {self.pick('True', '1', repr('x'))}:")
            self.put(level + 1, f"{counter} += 1")
            self.put(level + 1, f"if {counter} > {last}: break")
        else:
            self.put(level, f"while {counter} < {last}:")
            self.put(level + 1, f"{counter} += 1")
        self.block(level + 1, depth - 1, True)
        if self.chance(0.4):
            self.put(level, "else:")
            self.block(level + 1, depth - 1, False)

    def script(self):
        for x in NUMBERS:
            if not self.chance(0.03):
                self.put(0, f"{self.bind(x)} = {self.number_literal()}")
        for x in TEXTS:
            if not self.chance(0.03):
                self.put(0, f"{self.bind(x)} = {self.text_literal()}")
        for _ in range(self.random.randrange(3, 12)):
            self.statement(0, 3, False)
        for x in sorted(self.used - self.bound):
            self.put(0, f"{x} = 0")
        self.put(0, f"print({self.any(1)[0]})")
        for x in sorted(self.used - self.bound):
            self.put(0, f"{x} = 0")
        return "\n".join(self.lines) + "\n"


def random_script(seed):
    """The script of this seed."""
    return Writer(seed).script()
