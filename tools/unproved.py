#!/usr/bin/env python3
"""Runs the sources of nuit before any proof, with the words and the input of the caller: `NUIT_UNPROVED=1 ./nuit ..` calls it.

`rt try` compiles the sources with checks, which takes a minute or more, and runs the program in a folder of its own, over a copy of the
file that a word names. It gives at most 1 MiB of output, and says what it does on the standard error, among the program's messages.
"""
import os
import pathlib
import shutil
import subprocess
import sys
import tempfile

TOP = pathlib.Path(__file__).resolve().parent.parent
SECONDS = "600"


def main():
    words = sys.argv[1:]
    if shutil.which("rt") is None:
        sys.exit("nuit: there is no rt: the Rattle kit isn't installed")
    print("nuit: NOTHING IS PROVED: these are the sources before any proof (NUIT_UNPROVED=1)", file=sys.stderr, flush=True)
    flags = ["--seconds", SECONDS]
    for at, word in enumerate(words):
        if os.path.isfile(word) and at == 1:
            # A file outside the caller's folder goes by its last name alone.
            name = os.path.normpath(word)
            if name.startswith(("/", "..")):
                name = words[at] = os.path.basename(name)
            flags += ["--data", f"{name}={os.path.abspath(word)}"]
    # rt stops reading where the input is silent for two seconds, so what comes late, from a program or by hand, is read here to its end.
    with tempfile.TemporaryFile() as given:
        if not sys.stdin.isatty():
            shutil.copyfileobj(sys.stdin.buffer, given)
        given.seek(0)
        return subprocess.run(["rt", "try", *flags, "--", *words], cwd=TOP / "crates/nuit_cli", stdin=given).returncode


if __name__ == "__main__":
    sys.exit(main())
