"""Random scripts of the whole language: functions with all kinds of parameters, closures, classes, generators, containers,
comprehensions, exceptions, `finally` and `with`, one within the other.

Names have the kind of their values in their first letter, so most operations fit their operands. Loops end by what they go over,
and no function calls one that stands behind it. A few operations don't fit: these raise, mostly where a handler stands around them.
"""
import random

ERRORS = ["ValueError", "KeyError", "IndexError", "TypeError", "ZeroDivisionError", "RuntimeError", "AttributeError"]
CATCHES = ERRORS + ["Exception", "LookupError", "ArithmeticError", "(KeyError, TypeError)", "Trouble", "BaseException"]
WORDS = ["a", "b", "key", "x y", "", "été", "Zz"]


class Function:
    """A function that can be called: its name, and its parameters by kind."""

    def __init__(self, name, plain, defaults, star, only, double, kind):
        self.name, self.plain, self.defaults, self.star, self.only, self.double, self.kind = name, plain, defaults, star, only, double, kind


class Scope:
    """The names that are bound for sure, by the kind of their values, and what may stand here."""

    def __init__(self, outer=None, loop=False, function=False, generator=False):
        self.names = {"n": [], "s": [], "l": [], "d": [], "o": [], "g": []}
        self.outer, self.loop, self.function, self.generator = outer, loop, function, generator


class Writer:
    def __init__(self, seed):
        self.random = random.Random(seed)
        self.lines = []
        self.count = 0
        self.functions = []
        self.generators = []
        self.classes = []
        self.size = 0

    def chance(self, part):
        return self.random.random() < part

    def pick(self, *things):
        return self.random.choice(things)

    def put(self, level, line):
        self.size += 1
        self.lines.append("    " * level + line)

    def fresh(self, kind):
        self.count += 1
        return f"{kind}{self.count}"

    # a name of this kind that is bound here or, unless it is to be bound again, further out
    def name(self, scope, kind):
        found = list(scope.names[kind])
        while scope.outer:
            scope = scope.outer
            found += scope.names[kind]
        return self.random.choice(found) if found else None

    # Expressions, each a text that can be an operand

    def number(self, scope, depth):
        name = self.name(scope, "n")
        if depth == 0 or self.chance(0.2):
            return name if name and self.chance(0.7) else str(self.random.randrange(-3, 12))
        kind = self.random.randrange(14)
        if kind < 4:
            return f"({self.number(scope, depth - 1)} {self.pick('+', '-', '*', '+', '-')} {self.number(scope, depth - 1)})"
        if kind == 4:
            return f"({self.number(scope, depth - 1)} {self.pick('//', '%')} {self.pick('2', '7', '-3', self.number(scope, depth - 1))})"
        if kind == 5:
            return f"len({self.pick(self.text, self.items, self.pairs)(scope, depth - 1)})"
        if kind == 6:
            return f"({self.number(scope, depth - 1)} if {self.test(scope, depth - 1)} else {self.number(scope, depth - 1)})"
        if kind == 7:
            return f"sum([{self.number(scope, 0)} for {self.fresh('n')} in {self.items(scope, depth - 1)}])"
        if kind == 8:
            return f"{self.pick('max', 'min')}({self.number(scope, depth - 1)}, {self.number(scope, depth - 1)})"
        if kind == 9 and self.functions:
            return self.call(scope, depth)
        if kind == 10:
            name = self.fresh("n")
            return f"(lambda {name}, {self.fresh('n')}={self.number(scope, 0)}: {name} * 2)({self.number(scope, depth - 1)})"
        if kind == 11:
            return f"{self.pairs(scope, depth - 1)}.get({self.key(scope)}, {self.number(scope, 0)})"
        if kind == 12:
            thing = self.name(scope, "o")
            return f"{thing}.{self.pick('size', 'size', 'total()', 'missing' if self.chance(0.1) else 'size')}" if thing else "3"
        return f"abs({self.number(scope, depth - 1)})"

    def text(self, scope, depth):
        name = self.name(scope, "s")
        if depth == 0 or self.chance(0.3):
            return name if name and self.chance(0.6) else repr(self.random.choice(WORDS))
        kind = self.random.randrange(7)
        if kind == 0:
            return f"({self.text(scope, depth - 1)} + {self.text(scope, depth - 1)})"
        if kind == 1:
            return f"str({self.any(scope, depth - 1)})"
        if kind == 2:
            return f"{self.pick(repr(','), repr(''))}.join([str({self.fresh('n')}) for {self.last('n')} in {self.items(scope, depth - 1)}])"
        if kind == 3:
            return f"repr({self.any(scope, depth - 1)})"
        if kind == 4:
            return f"{self.text(scope, depth - 1)}{self.pick('.upper()', '.strip()', '[1:]', '[::-1]', '.replace(' + repr('a') + ', ' + repr('bb') + ')')}".replace("é", "e")
        if kind == 5:
            return f"({self.text(scope, depth - 1)} * {self.random.randrange(3)})"
        thing = self.name(scope, "o")
        return f"str({thing})" if thing else repr("é")

    def last(self, kind):
        return f"{kind}{self.count}"

    def items(self, scope, depth):
        name = self.name(scope, "l")
        if depth == 0 or self.chance(0.2):
            return name if name and self.chance(0.6) else f"[{', '.join(str(self.random.randrange(9)) for _ in range(self.random.randrange(4)))}]"
        kind = self.random.randrange(10)
        if kind == 0:
            return f"[{self.number(scope, depth - 1)}, *{self.items(scope, depth - 1)}]"
        if kind == 1:
            return f"list(range({self.random.randrange(5)}))"
        if kind == 2:
            return f"sorted({self.items(scope, depth - 1)})"
        if kind == 3:
            name = self.fresh("n")
            inner = Scope(scope)
            inner.names["n"].append(name)
            outer = self.items(scope, depth - 1)
            more = f" if {self.test(inner, 1)}" if self.chance(0.4) else ""
            again = f" for {self.fresh('n')} in {self.pick('range(2)', '[1]', '(3, 4)')}" if self.chance(0.3) else ""
            return f"[{self.number(inner, 1)} for {name} in {outer}{more}{again}]"
        if kind == 4:
            return f"{self.items(scope, depth - 1)}[{self.pick(':2', '1:', '::-1', ':', '-2:', '::2')}]"
        if kind == 5:
            return f"({self.items(scope, depth - 1)} + {self.items(scope, depth - 1)})"
        if kind == 6 and self.generators:
            return f"list({self.generator_call(scope)})"
        if kind == 7:
            return f"list({self.pairs(scope, depth - 1)}.values())"
        if kind == 8:
            name = self.fresh("n")
            return f"list({name} + 1 for {name} in {self.items(scope, depth - 1)})"
        return f"list({self.pick('map(abs, {})', 'filter(None, {})', 'reversed({})').format(self.items(scope, depth - 1))})"

    def key(self, scope):
        return self.pick(self.text, self.number)(scope, 0)

    def pairs(self, scope, depth):
        name = self.name(scope, "d")
        if depth == 0 or self.chance(0.3):
            return name if name and self.chance(0.6) else "{" + ", ".join(f"{self.key(scope)}: {self.number(scope, 0)}" for _ in range(self.random.randrange(3))) + "}"
        kind = self.random.randrange(3)
        if kind == 0:
            return "{" + f"{self.key(scope)}: {self.number(scope, depth - 1)}, **{self.pairs(scope, depth - 1)}" + "}"
        if kind == 1:
            name = self.fresh("n")
            return "{" + f"{name} % 3: {name} for {name} in {self.items(scope, depth - 1)}" + "}"
        return f"dict({self.pairs(scope, depth - 1)})"

    def test(self, scope, depth):
        if depth <= 0:
            return self.pick("True", "False", "None", self.number(scope, 0), self.text(scope, 0), self.items(scope, 0))
        kind = self.random.randrange(9)
        if kind < 3:
            return f"({self.number(scope, depth - 1)} {self.pick('<', '<=', '>', '>=', '==', '!=')} {self.number(scope, depth - 1)})"
        if kind == 3:
            return f"({self.number(scope, depth - 1)} < {self.number(scope, depth - 1)} <= {self.number(scope, depth - 1)})"
        if kind == 4:
            return f"({self.test(scope, depth - 1)} {self.pick('and', 'or')} {self.test(scope, depth - 1)})"
        if kind == 5:
            return f"(not {self.test(scope, depth - 1)})"
        if kind == 6:
            return f"({self.key(scope)} {self.pick('in', 'not in')} {self.pairs(scope, depth - 1)})"
        if kind == 7:
            return f"isinstance({self.any(scope, depth - 1)}, {self.pick('int', 'str', '(list, dict)', 'object', 'bool')})"
        return f"({self.any(scope, depth - 1)} {self.pick('is', 'is not', '==')} {self.any(scope, depth - 1)})"

    def any(self, scope, depth):
        kind = self.random.randrange(8)
        if kind == 7:
            return f"({self.number(scope, depth)}, {self.text(scope, max(depth - 1, 0))})"
        if kind == 6:
            return self.pick("None", "True", "()")
        return self.pick(self.number, self.number, self.text, self.items, self.pairs, self.test)(scope, max(depth, 0))

    # arguments that fit, or seldom don't
    def arguments(self, scope, f):
        given = []
        count = f.plain + self.random.randrange(f.defaults + 1)
        if self.chance(0.05):
            count += self.pick(-1, 1)
        plain = [self.number(scope, 1) for _ in range(max(count, 0))]
        if plain and self.chance(0.2):
            place = self.random.randrange(len(plain))
            plain[place:] = [f"*[{', '.join(plain[place:])}]"]
        given += plain
        if f.star and self.chance(0.5):
            given.append(f"*{self.items(scope, 0)}")
        given += [f"{k}={self.number(scope, 1)}" for k in f.only if self.chance(0.6)]
        if f.double and self.chance(0.5):
            given.append("**{" + f"'w{self.random.randrange(5)}': {self.number(scope, 0)}" + "}")
        return ", ".join(given)

    def call(self, scope, depth):
        f = self.random.choice(self.functions)
        return f"{f.name}({self.arguments(scope, f)})"

    def generator_call(self, scope):
        f = self.random.choice(self.generators)
        return f"{f.name}({self.arguments(scope, f)})"

    # Statements

    def bind(self, scope, level, kind, value):
        known = [x for x in scope.names[kind]]
        name = self.random.choice(known) if known and self.chance(0.5) else self.fresh(kind)
        self.put(level, f"{name} = {value}")
        if name not in scope.names[kind]:
            scope.names[kind].append(name)

    def simple(self, scope, level):
        kind = self.random.randrange(17)
        if kind < 4:
            more = self.pick("", "", f", {self.any(scope, 1)}", f", sep={self.text(scope, 0)}", ", end=';\\n'")
            self.put(level, f"print({self.any(scope, 2)}{more})")
        elif kind < 7:
            which = self.pick("n", "n", "s", "l", "d")
            value = {"n": self.number, "s": self.text, "l": self.items, "d": self.pairs}[which](scope, 2)
            self.bind(scope, level, which, value)
        elif kind == 7 and scope.names["n"]:
            self.put(level, f"{self.random.choice(scope.names['n'])} {self.pick('+=', '-=', '*=')} {self.number(scope, 1)}")
        elif kind == 8 and self.name(scope, "l"):
            name = self.name(scope, "l")
            self.put(level, self.pick(f"{name}.append({self.number(scope, 1)})", f"{name}.insert(0, {self.number(scope, 0)})",
                                      f"{name}.reverse()", f"{name}.pop()", f"{name}.extend({self.items(scope, 0)})", f"{name}.sort()"))
        elif kind == 9 and self.name(scope, "d"):
            name = self.name(scope, "d")
            self.put(level, self.pick(f"{name}[{self.key(scope)}] = {self.number(scope, 1)}", f"{name}.pop({self.key(scope)}, None)",
                                      f"{name}.update({self.pairs(scope, 0)})", f"{name}.setdefault({self.key(scope)}, {self.number(scope, 0)})",
                                      f"del {name}[{self.key(scope)}]"))
        elif kind == 10:
            a, b = self.fresh("n"), self.fresh("n")
            self.put(level, f"{a}, {b} = {self.number(scope, 1)}, {self.number(scope, 1)}")
            scope.names["n"] += [a, b]
        elif kind == 11:
            a, b = self.fresh("n"), self.fresh("l")
            self.put(level, f"{a}, *{b} = [{self.number(scope, 0)}, *{self.items(scope, 1)}]")
            scope.names["n"].append(a)
            scope.names["l"].append(b)
        elif kind == 12 and self.name(scope, "o"):
            thing = self.name(scope, "o")
            self.put(level, self.pick(f"{thing}.size += {self.number(scope, 1)}", f"{thing}.extra = {self.number(scope, 1)}", f"print({thing}, len({thing}))",
                                      f"print({self.number(scope, 0)} in {thing}, {thing}[{self.number(scope, 0)}])"))
        elif kind == 13 and self.classes:
            name = self.fresh("o")
            self.put(level, f"{name} = {self.random.choice(self.classes)}({self.number(scope, 1)})")
            scope.names["o"].append(name)
        elif kind == 14 and self.generators:
            self.drive(scope, level)
        elif kind == 15:
            self.put(level, f"assert {self.test(scope, 1)}, {self.text(scope, 0)}" if self.chance(0.15) else "pass")
        else:
            self.put(level, f"print({self.number(scope, 2)})")

    # a generator is resumed by hand
    def drive(self, scope, level):
        name = self.fresh("g")
        self.put(level, f"{name} = {self.generator_call(scope)}")
        self.put(level, "try:")
        for _ in range(self.random.randrange(1, 4)):
            self.put(level + 1, self.pick(f"print(next({name}))", f"print({name}.send(None))", f"print(next({name}, 'none'))", f"print({name}.send({self.number(scope, 0)}))",
                                          f"print({name}.throw({self.random.choice(ERRORS)}('t')))", f"{name}.close()"))
        self.put(level, f"except ({self.random.choice(ERRORS)}, StopIteration) as e:")
        self.put(level + 1, "print(type(e).__name__, e)")

    def block(self, scope, level, depth):
        for _ in range(self.random.randrange(1, 4)):
            self.statement(scope, level, depth)

    # a block of which nothing is known behind it
    def inner(self, scope, level, depth, loop=None):
        kept = {k: list(v) for k, v in scope.names.items()}
        was, scope.loop = scope.loop, scope.loop if loop is None else loop
        self.block(scope, level, depth)
        scope.loop = was
        scope.names = kept

    def statement(self, scope, level, depth):
        kind = self.random.randrange(26)
        if self.size > 160 or depth == 0 or kind < 12:
            if scope.generator and self.chance(0.3):
                self.pause(scope, level)
            elif scope.loop and self.chance(0.1):
                self.put(level, f"if {self.test(scope, 1)}: {self.pick('break', 'continue')}")
            elif scope.function and self.chance(0.08):
                self.put(level, f"if {self.test(scope, 1)}: return {self.number(scope, 1)}")
            elif self.chance(0.05):
                self.put(level, f"if {self.test(scope, 1)}: raise {self.random.choice(ERRORS)}({self.text(scope, 0)})")
            else:
                self.simple(scope, level)
        elif kind < 15:
            self.put(level, f"if {self.test(scope, 2)}:")
            self.inner(scope, level + 1, depth - 1)
            if self.chance(0.4):
                self.put(level, f"elif {self.test(scope, 1)}:")
                self.inner(scope, level + 1, depth - 1)
            if self.chance(0.4):
                self.put(level, "else:")
                self.inner(scope, level + 1, depth - 1)
        elif kind < 18:
            self.loop(scope, level, depth)
        elif kind < 22:
            self.guarded(scope, level, depth)
        elif kind == 22:
            self.put(level, f"with Manager({self.text(scope, 0)}, {self.pick('True', 'False', 'None', '0')}) as s0:")
            self.inner(scope, level + 1, depth - 1)
        elif kind == 23:
            self.function(scope, level, depth - 1, generator=self.chance(0.4))
        elif kind == 24 and level == 0:
            self.class_of(scope, level, depth - 1)
        else:
            self.simple(scope, level)

    def loop(self, scope, level, depth):
        if self.chance(0.7):
            name = self.fresh("n")
            over = self.pick(f"range({self.random.randrange(5)})", self.items(scope, 1) + "[:6]", f"enumerate({self.items(scope, 0)}[:4])")
            target = name
            if over.startswith("enumerate"):
                other = self.fresh("n")
                target = f"{name}, {other}"
            self.put(level, f"for {target} in {over}:")
            scope.names["n"].append(name)
            self.inner(scope, level + 1, depth - 1, loop=True)
            scope.names["n"].remove(name)
        else:
            name = self.fresh("t")
            self.put(level, f"{name} = 0")
            self.put(level, f"while {name} < {self.random.randrange(1, 5)}:")
            self.put(level + 1, f"{name} += 1")
            self.inner(scope, level + 1, depth - 1, loop=True)
        if self.chance(0.3):
            self.put(level, "else:")
            self.inner(scope, level + 1, depth - 1)

    def guarded(self, scope, level, depth):
        self.put(level, "try:")
        self.inner(scope, level + 1, depth - 1)
        clauses = self.random.randrange(3)
        for _ in range(clauses):
            if self.chance(0.6):
                self.put(level, f"except {self.random.choice(CATCHES)} as e:")
                self.put(level + 1, "print(type(e).__name__, e)")
            else:
                self.put(level, f"except {self.random.choice(CATCHES)}:")
            self.inner(scope, level + 1, depth - 1)
            if self.chance(0.2):
                self.put(level + 1, "raise")
        if clauses and self.chance(0.3):
            self.put(level, "else:")
            self.inner(scope, level + 1, depth - 1)
        if not clauses or self.chance(0.4):
            self.put(level, "finally:")
            self.inner(scope, level + 1, depth - 1)

    def pause(self, scope, level):
        kind = self.random.randrange(4)
        if kind == 0:
            self.put(level, f"yield {self.number(scope, 1)}")
        elif kind == 1:
            name = self.fresh("y")
            self.put(level, f"{name} = yield {self.any(scope, 1)}")
            self.put(level, f"print('got', {name})")
        elif kind == 2 and self.generators:
            name = self.fresh("y")
            self.put(level, f"{name} = yield from {self.generator_call(scope)}")
            self.put(level, f"print('back', {name})")
        else:
            self.put(level, f"yield from {self.items(scope, 1)}")

    def function(self, scope, level, depth, generator=False):
        plain, defaults = self.random.randrange(3), self.random.randrange(2)
        star, double = self.chance(0.2), self.chance(0.2)
        inner = Scope(scope, function=True, generator=generator)
        params = []
        for place in range(plain + defaults):
            name = self.fresh("n")
            inner.names["n"].append(name)
            params.append(name if place < plain else f"{name}={self.number(scope, 0)}")
        if plain and self.chance(0.2):
            params.insert(self.random.randrange(1, plain + 1), "/")
        only = []
        if star:
            name = self.fresh("l")
            params.append(f"*{name}")
        if self.chance(0.2):
            if not star:
                params.append("*")
            only.append(self.fresh("n"))
            params.append(f"{only[0]}={self.number(scope, 0)}")
            inner.names["n"] += only
        if double:
            name = self.fresh("d")
            params.append(f"**{name}")
            inner.names["d"].append(name)
        name = self.fresh("f")
        if self.chance(0.1) and not generator:
            self.put(level, "@twice")
        self.put(level, f"def {name}({', '.join(params)}):")
        known = self.name(scope, "n")
        if known and scope.function and known in scope.names["n"] and self.chance(0.5):
            self.put(level + 1, f"nonlocal {known}")
            self.put(level + 1, f"{known} = {self.number(inner, 1)}")
        functions, generators, classes = list(self.functions), list(self.generators), list(self.classes)
        self.block(inner, level + 1, depth)
        if generator:
            self.pause(inner, level + 1)
        self.functions, self.generators, self.classes = functions, generators, classes
        self.put(level + 1, f"return {self.number(inner, 1)}")
        # a function that stands in a block may not be there
        if level == 0:
            made = Function(name, plain, defaults, star, only, double, generator)
            (self.generators if generator else self.functions).append(made)
        elif not generator:
            self.put(level, f"print({name}({', '.join(self.number(scope, 0) for _ in range(plain))}))")

    def class_of(self, scope, level, depth):
        name = self.fresh("C")
        base = self.random.choice(self.classes) if self.classes and self.chance(0.6) else None
        self.put(level, f"class {name}({base or 'Base'}):")
        self.put(level + 1, f"count = {self.number(scope, 1)}")
        inner = Scope(scope, function=True)
        inner.names["n"] += ["self.size"]
        for method in self.random.sample(["total", "__str__", "__len__", "__contains__", "__getitem__", "__init__"], self.random.randrange(1, 4)):
            if method == "total":
                self.put(level + 1, "def total(self):")
                self.put(level + 2, f"return self.size + {self.number(inner, 1)} + self.count")
            elif method == "__str__":
                self.put(level + 1, "def __str__(self):")
                self.put(level + 2, f"return '{name}' + str(self.size)")
            elif method == "__len__":
                self.put(level + 1, "def __len__(self):")
                self.put(level + 2, "return abs(self.size) % 5")
            elif method == "__contains__":
                self.put(level + 1, "def __contains__(self, x):")
                self.put(level + 2, f"return x == self.size or {self.test(inner, 1)}")
            elif method == "__getitem__":
                self.put(level + 1, "def __getitem__(self, i):")
                self.put(level + 2, f"if i > 3: raise IndexError(i)")
                self.put(level + 2, f"return i * {self.number(inner, 1)}")
            else:
                self.put(level + 1, "def __init__(self, x, *rest):")
                self.put(level + 2, f"{base or 'Base'}.__init__(self, x)")
                self.put(level + 2, f"self.extra = {self.number(inner, 1)}")
        self.classes.append(name)

    def script(self):
        for line in HEAD:
            self.put(0, line)
        scope = Scope()
        scope.names["n"] += ["n0"]
        scope.names["s"] += ["s0"]
        scope.names["l"] += ["l0"]
        scope.names["d"] += ["d0"]
        self.size = 0
        for _ in range(self.random.randrange(2, 5)):
            self.function(scope, 0, self.random.randrange(1, 4), generator=self.chance(0.4))
        if self.chance(0.6):
            self.class_of(scope, 0, 2)
        while self.size < 90:
            self.statement(scope, 0, 3)
        return "\n".join(self.lines) + "\n"


HEAD = '''n0 = 4
s0 = "text"
l0 = [3, 1, 2]
d0 = {"a": 1, 2: 5}
class Trouble(ValueError):
    pass
class Base:
    count = 1
    def __init__(self, size):
        self.size = size
    def __len__(self):
        return 2
    def __getitem__(self, place):
        if place > 2:
            raise IndexError("no " + str(place))
        return place + self.size
    def __str__(self):
        return "<" + type(self).__name__ + " " + str(self.size) + ">"
    def total(self):
        return self.size * self.count
class Manager:
    def __init__(self, name, keeps):
        self.name = name
        self.keeps = keeps
    def __enter__(self):
        print("enter", self.name)
        return self.name
    def __exit__(self, kind, error, trace):
        print("exit", self.name, kind is None)
        return self.keeps
def twice(f):
    def doubled(*args, **named):
        return f(*args, **named) * 2
    return doubled'''.split("\n")


def random_program(seed):
    return Writer(seed).script()
