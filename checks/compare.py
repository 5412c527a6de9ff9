"""Compares what scripts print, and how they end, when `nuit` builds and runs them and when python3 does.

usage: compare [--random N] [--seed S] [SCRIPT..]

With no words these are the scripts in examples/ and 500 random ones. It says nothing where they agree; else it shows the first
difference. Of an uncaught exception the entries of the traceback and the class are compared. Where the profile stops a script by
name, as at an integer beyond 128 bits, the output up to there and the name of the stop are. NUIT names another program than ./nuit.
"""
import argparse
import ast
import contextlib
import io
import operator
import os
import pathlib
import re
import shlex
import signal
import subprocess
import sys
import tempfile
from concurrent.futures import ThreadPoolExecutor
from dataclasses import dataclass

from random_scripts import random_script

TOP = pathlib.Path(__file__).resolve().parent.parent
NUIT = shlex.split(os.environ.get("NUIT", "")) or [str(TOP / "nuit")]
SECONDS = 60
STOPPED = 5
TRACEBACK = "Traceback (most recent call last):"


@dataclass
class Outcome:
    """What a script printed, and how it ended: "normally", a traceback's entries and class, or a stop."""

    output: bytes
    end: str


class Stop(BaseException):
    """A stop that the profile names."""


LEAST, MOST = -(2**127), 2**127 - 1
LONGEST = 16_777_216


def in_range(value):
    if type(value) is int and not LEAST <= value <= MOST:
        raise Stop("Int")
    return value


def binary(name, left, right):
    """An operation, and the stops that Python doesn't have."""
    if isinstance(left, int) and isinstance(right, int):
        if name == "Pow" and right < 0 and left != 0:
            raise Stop("Float")
        if (name == "Pow" and abs(left) > 1 or name == "LShift" and left != 0) and right > 127:
            raise Stop("Int")
    if name == "Mod" and isinstance(left, str):
        raise Stop("Unbuilt")
    length = 0
    if name == "Mult" and {type(left), type(right)} & {int, bool} and str in {type(left), type(right)}:
        length = len(left) * right if isinstance(left, str) else left * len(right)
    if name == "Add" and isinstance(left, str) and isinstance(right, str):
        length = len(left) + len(right)
    if length > LONGEST:
        raise Stop("Size")
    return in_range(OPERATIONS[name](left, right))


OPERATIONS = {
    "Add": operator.add, "Sub": operator.sub, "Mult": operator.mul, "FloorDiv": operator.floordiv, "Mod": operator.mod,
    "Pow": operator.pow, "LShift": operator.lshift, "RShift": operator.rshift, "BitAnd": operator.and_, "BitOr": operator.or_,
    "BitXor": operator.xor,
}


class Watched(ast.NodeTransformer):
    """Calls in place of the operations that may stop a script."""

    def call(self, name, *args):
        return ast.Call(ast.Name(name, ast.Load()), list(args), [])

    def visit_BinOp(self, node):
        node = self.generic_visit(node)
        return ast.copy_location(self.call(".binary", ast.Constant(type(node.op).__name__), node.left, node.right), node)

    def visit_UnaryOp(self, node):
        node = self.generic_visit(node)
        return ast.copy_location(self.call(".in_range", node), node)

    def visit_AugAssign(self, node):
        node = self.generic_visit(node)
        value = self.call(".binary", ast.Constant(type(node.op).__name__), ast.Name(node.target.id, ast.Load()), node.value)
        return ast.copy_location(ast.Assign([node.target], value), node)


def stopped(text):
    """The outcome of a script that the profile stops, else None."""
    tree = ast.fix_missing_locations(Watched().visit(ast.parse(text)))
    output = io.StringIO()
    try:
        with contextlib.redirect_stdout(output):
            exec(compile(tree, "script", "exec"), {".binary": binary, ".in_range": in_range, "__name__": "__main__"})
    except Stop as stop:
        return Outcome(output.getvalue().encode(), f"nuit: stop: {stop}\n")
    except Exception:
        pass
    return None


def end_of(status, message, path):
    """The entries of a traceback in this file, and the class of the exception."""
    lines = message.splitlines()
    if status == 0 and not lines:
        return "normally"
    if status != 1 or not lines or lines[0] != TRACEBACK:
        return f"status {status}\n{message}"
    entries = [line for line in lines if line.startswith(f'  File "{path}", line ')]
    return "\n".join([TRACEBACK, *entries, re.split(r":| ", lines[-1])[0]])


def run(words):
    done = subprocess.run(words, stdin=subprocess.DEVNULL, capture_output=True, timeout=SECONDS)
    return done.returncode, done.stdout, done.stderr.decode(errors="replace")


def wanted(path):
    stop = stopped(path.read_text(encoding="utf-8"))
    if stop is not None:
        return stop
    status, output, message = run([sys.executable, "-W", "ignore", "-X", "utf8", str(path)])
    return Outcome(output, end_of(status, message, path))


def got(path, folder):
    status, text, message = run([*NUIT, "build", str(path)])
    if status != 0:
        return Outcome(b"", f"build: status {status}\n{message}")
    built = folder / f"{path.stem}.c"
    built.write_bytes(text)
    status, output, message = run([*NUIT, "run", str(built)])
    built.unlink()
    if status == STOPPED:
        return Outcome(output, message)
    if status == 1 and len(message.splitlines()) != len(end_of(status, message, path).splitlines()):
        return Outcome(output, f"status 1\n{message}")
    return Outcome(output, end_of(status, message, path))


def difference(path, ours, theirs):
    """The first line in which two outcomes differ."""
    if ours == theirs:
        return None
    for n, (a, b) in enumerate(zip(ours.output.split(b"\n") + [b""], theirs.output.split(b"\n") + [b""]), 1):
        if a != b:
            return f"line {n} of the output\n  nuit:    {a!r}\n  python3: {b!r}"
    if ours.output != theirs.output:
        return f"the output\n  nuit:    {len(ours.output)} bytes\n  python3: {len(theirs.output)} bytes"
    return f"the end\nnuit:\n{ours.end}\npython3:\n{theirs.end}"


def main():
    parser = argparse.ArgumentParser(description=__doc__.splitlines()[0])
    parser.add_argument("--random", type=int, metavar="N")
    parser.add_argument("--seed", type=int, default=7)
    parser.add_argument("scripts", nargs="*", type=pathlib.Path)
    words = parser.parse_args()
    count = words.random if words.random is not None else 0 if words.scripts else 500
    scripts = [path.absolute() for path in words.scripts or sorted(TOP.glob("examples/*.py"))]
    with tempfile.TemporaryDirectory() as name:
        folder = pathlib.Path(name)
        for n in range(count):
            path = folder / f"random{n}.py"
            path.write_text(random_script(f"{words.seed} {n}"), encoding="utf-8")
            scripts.append(path)
        signal.alarm(3600)
        # in this process, and so one after the other: the output of a watched script is that of the whole process
        theirs = list(map(wanted, scripts))
        with ThreadPoolExecutor(os.cpu_count()) as pool:
            for path, ours, other in zip(scripts, pool.map(lambda path: got(path, folder), scripts), theirs):
                found = difference(path, ours, other)
                if found:
                    pool.shutdown(cancel_futures=True)
                    print(f"nuit and python3 differ on {path}: {found}")
                    print("\n".join(f"{n:4} {line}" for n, line in enumerate(path.read_text(encoding="utf-8").split("\n"), 1)))
                    return 1
    return 0


sys.exit(main())
