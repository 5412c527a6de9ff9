"""Statements of C texts for the checks against the reference: how they are spelled, and how a function shows what it has."""


def spelled(text):
    plain = (chr(b) if 32 <= b < 127 and b not in b'"\\?' else f"\\{b:03o}" for b in text.encode())
    return '"' + "".join(plain) + '"'


def quoted(text):
    return f"nu_str({spelled(text)})"


class Body:
    """The statements of one function. r11 to r19 are for its own work; r20 and r21 hold the names of the kinds that are printed, and of
    those whose items are."""

    def __init__(self, numbers):
        self.numbers = numbers
        self.lines, self.label, self.handler = [], 1, 0

    def begin(self, registers):
        """What stands at the front: no register is without a value."""
        self.lines += [f"  r{place} = nu_none;" for place in range(registers)]
        self.do(20, "tuple", *map(quoted, "int str none bool".split()))
        self.do(21, "tuple", *map(quoted, "list tuple dict range view".split()))

    # ---- statements

    def fresh(self):
        self.label += 1
        return self.label - 1

    def do(self, place, name, *operands):
        given = "".join(", " + operand for operand in operands)
        self.lines.append(f"  r{place} = nu_{name}(fr, {self.numbers.randrange(1, 400)}{given}); if (nu_bad(fr)) goto L{self.handler};")

    def native(self, place, name, *operands):
        self.do(18, "native", f'"{name}"') if name in ("len", "int", "str") else self.do(18, "global", f'"{name}"')
        self.do(place, "call", "r18", *operands)

    def show(self, operand):
        self.native(19, "print", operand)

    def show_plain(self, place):
        """The kind of a value, and the value where it is printable."""
        behind = self.fresh()
        self.native(11, "_nu_kind", f"r{place}")
        self.show("r11")
        self.do(12, "in", "r11", "r20")
        self.do(12, "not", "r12")
        self.lines.append(f"  if (nu_is(r12)) goto L{behind};")
        self.show(f"r{place}")
        self.lines.append(f"L{behind}:;")

    def show_items(self, place):
        """What a container holds, one by one."""
        behind, turn, end, outer = self.fresh(), self.fresh(), self.fresh(), self.handler
        self.native(11, "_nu_kind", f"r{place}")
        self.do(12, "in", "r11", "r21")
        self.do(12, "not", "r12")
        self.lines.append(f"  if (nu_is(r12)) goto L{behind};")
        self.do(13, "iter", f"r{place}")
        self.lines.append(f"L{turn}:;")
        self.handler = end
        self.do(14, "next", "r13")
        self.handler = outer
        self.show_plain(14)
        self.lines += [f"  goto L{turn};", f"L{end}:;", "  r15 = nu_caught(fr);"]
        self.do(15, "classof", "r15")
        self.do(15, "attr", "r15", '"__name__"')
        self.show("r15")
        self.lines.append(f"L{behind}:;")

    def shown(self, place):
        self.show_plain(place)
        self.show_items(place)

    def caught(self, write, place):
        """What `write` writes, then what it gave; its exception is shown, and kept in the place."""
        outer, self.handler, behind = self.handler, self.fresh(), self.fresh()
        write()
        inner, self.handler = self.handler, outer
        self.lines += [f"  goto L{behind};", f"L{inner}:;", f"  r{place} = nu_caught(fr);"]
        self.do(16, "classof", f"r{place}")
        self.do(16, "attr", "r16", '"__name__"')
        self.show("r16")
        self.do(16, "attr", f"r{place}", '"args"')
        self.shown(16)
        self.lines.append(f"L{behind}:;")
        self.shown(place)


def function(number, scope, params, registers, lines):
    """The text of a function with these statements; the label 0 ends it with the exception that is raised."""
    return [f'NU_CODE({number}, {spelled(scope)}, {spelled(params)}, 0, 0, {number + 1})', f"nu nu_code_{number}(nu_frame *fr)", "{",
            "  nu " + ", ".join(f"r{n}" for n in range(registers)) + ";", *lines, "  return nu_end(fr);", "L0:;",
            "  return nu_fail(fr);", "}"]


def program(name, functions):
    """The C text of these functions, the first of which is the module's."""
    lines = ["/* nuit C 1 */", '#include "nuit1.h"', f"NU_SCRIPT({spelled(name)}, {len(functions)}, 0)"]
    return "\n".join(lines + [line for it in functions for line in it]).encode() + b"\n"
