#!/usr/bin/env python3
"""Proves what the program nuit stands on and builds it, with all processors; `./nuit` calls it where the program isn't there.

    tools/prove.py            the crates below nuit_cli, and then the program
    tools/prove.py CRATE ..   these crates and those below them, and no program

The crates are proved lowest first, side by side, by `rt lib`. That takes the folders of all crates below its own, so each crate is
proved in a folder of its own, out/prove/CRATE, over copies of the sources and links to the libraries that stand. A library that is
proved goes to out/rlib of its crate at once: interrupted, the next call goes on behind it. One call works here at a time, a second
waits for it; where another copy of the repository proves the same crate, rt waits for that.

On a terminal a line that is written over tells how far it is; elsewhere there is a line for each crate. The time that is left comes
from tools/costs.txt, which has the seconds of each crate's proof on an idle processor, and from how long the crates so far took.
"""
import contextlib
import fcntl
import hashlib
import os
import pathlib
import shutil
import signal
import subprocess
import sys
import time

TOP = pathlib.Path(__file__).resolve().parent.parent
ROOM = TOP / "out/prove"
PROGRAM = "nuit_cli"
MEMORY = 3_500_000_000  # bytes for one proof
USUAL = 60  # seconds for a crate that isn't in the table


class Failed(Exception):
    """What is told where a crate isn't proved."""


def uses():
    """Each crate and the crates of the repository that it names, by crates.txt."""
    rows = (line.partition("#")[0] for line in (TOP / "crates.txt").read_text().splitlines())
    named = {row.partition(":")[0].split()[0]: row.partition(":")[2].split() for row in rows if row.strip()}
    return {name: [it for it in words if it in named] for name, words in named.items()}


def below(names, named):
    """These crates and all that they stand on, each behind those that it uses."""
    found = []
    for name in names:
        found += [it for it in [*below(named[name], named), name] if it not in found]
    return found


def costs():
    rows = (line.split() for line in (TOP / "tools/costs.txt").read_text().splitlines() if not line.startswith("#"))
    return {name: int(seconds) for name, seconds in rows}


def memory():
    """Bytes that are free."""
    with contextlib.suppress(OSError):
        for line in open("/proc/meminfo"):
            if line.startswith("MemAvailable:"):
                return 1024 * int(line.split()[1])
    return MEMORY


def link(one, other):
    try:
        os.link(one, other)
    except OSError:
        shutil.copy2(one, other)


def give(library, folder):
    """Puts a library into a crate's folder, whole or not at all."""
    new = folder / "out/rlib.new"
    shutil.rmtree(new, ignore_errors=True)
    shutil.copytree(library, new, copy_function=link)
    shutil.rmtree(folder / "out/rlib", ignore_errors=True)
    new.rename(folder / "out/rlib")


def text_of(path):
    return path.read_text() if path.is_file() else None


def text_sum(name, below):
    """A sum of a crate's files and of those below it."""
    found = hashlib.sha256("".join(below).encode())
    for path in sorted(it for part in ("src", "specs", "proofs") for it in (TOP / "crates" / name / part).rglob("*") if it.is_file()):
        found.update(f"{path.relative_to(TOP)}\n".encode() + path.read_bytes())
    return found.hexdigest()


class Proving:
    """Which crates are proved, which are being proved, and what is left."""

    def __init__(self, names, named, is_program):
        self.named, self.costs = named, costs()
        self.sums = {}
        for name in names:
            self.sums[name] = text_sum(name, [self.sums[it] for it in named[name]])
        self.done = set()  # what stands is proved; rt looks once more when it builds the program
        for name in names:
            if text_of(TOP / "crates" / name / "out/rlib/text") == self.sums[name] and all(it in self.done for it in named[name]):
                self.done.add(name)
        self.left, self.running = [name for name in names if name not in self.done], {}
        self.count = len(names) + is_program
        self.processors = len(os.sched_getaffinity(0))
        self.lanes = max(1, min(self.processors, memory() // MEMORY))
        self.spent = self.thought = 0.0  # seconds that the proofs of this call took, and those of the table
        self.is_terminal = sys.stderr.isatty()

    def cost(self, name):
        return self.costs.get(name, USUAL)

    # ---- one crate

    def prepare(self, name):
        """The folder that the crate is proved in."""
        room = ROOM / name
        room.mkdir(parents=True, exist_ok=True)
        whole = below([name], self.named)
        rows = (TOP / "crates.txt").read_text().splitlines()
        (room / "crates.txt").write_text("".join(f"{row}\n" for row in rows if row.partition(":")[0].strip() in whole))
        shutil.copy2(TOP / "HANDLES", room / "HANDLES")
        for it in whole:
            of, to = TOP / "crates" / it, room / "crates" / it
            for part in ("src", "specs", "proofs"):
                shutil.rmtree(to / part, ignore_errors=True)
                if (of / part).is_dir():
                    shutil.copytree(of / part, to / part)
            if (of / "out/rlib/stamp").is_file():
                (to / "out").mkdir(exist_ok=True)
                give(of / "out/rlib", to)
        return room / "crates" / name

    def begin(self, name):
        folder = self.prepare(name)
        ready = sum(all(it in self.done for it in self.named[other]) for other in self.left)
        jobs = max(1, self.lanes // (len(self.running) + 1 + ready))
        log = open(folder.parent.parent / "log", "wb")
        run = subprocess.Popen(["rt", "lib", "--jobs", str(jobs)], cwd=folder, stdin=subprocess.DEVNULL, stdout=log, stderr=log)
        self.running[name] = (run, time.monotonic(), folder)

    def end(self, name):
        run, began, folder = self.running.pop(name)
        if run.returncode or not (folder / "out/rlib/stamp").is_file():
            raise Failed(f"{name} isn't proved; what rt says is in {folder.parent.parent / 'log'}")
        took = time.monotonic() - began
        if took > 5:  # else it stood
            self.spent += took
            self.thought += self.cost(name)
        (TOP / "crates" / name / "out").mkdir(exist_ok=True)
        (folder / "out/rlib/text").write_text(self.sums[name])
        give(folder / "out/rlib", TOP / "crates" / name)
        self.done.add(name)
        shutil.rmtree(ROOM / name, ignore_errors=True)

    # ---- all of them

    def remaining(self):
        """Seconds until all is proved: the crates go through the lanes by the table, at the pace so far."""
        pace = min(max((self.spent + 60) / (self.thought + 60), 0.2), 5)
        now = time.monotonic()
        ends = {name: max(self.cost(name) * pace - (now - began), 5) for name, (_, began, _) in self.running.items()}
        lanes = sorted([*ends.values(), *[0.0] * (self.lanes - len(ends))])
        for name in self.left:
            start = max([lanes.pop(0), *[ends.get(it, 0) for it in self.named[name]]])
            ends[name] = start + self.cost(name) * pace
            lanes = sorted([*lanes, ends[name]])
        return max([0, *ends.values()])

    def tell(self, names):
        seconds = self.remaining()
        minutes = round(seconds / 60)
        left = "less than a minute" if minutes < 1 else "about a minute" if minutes == 1 else f"about {minutes} minutes"
        at = min(len(self.done) + 1, self.count)
        said = f"nuit: proving {at} of {self.count} crates ({', '.join(names)}), {left} left"
        if self.is_terminal:
            width = shutil.get_terminal_size().columns - 1
            print(f"\r\033[K{said[:width]}", end="", file=sys.stderr, flush=True)
        else:
            print(said, file=sys.stderr, flush=True)

    def clear(self):
        if self.is_terminal:
            print("\r\033[K", end="", file=sys.stderr, flush=True)

    def prove(self):
        try:
            while self.left or self.running:
                for name in list(self.left):
                    if len(self.running) < self.lanes and all(it in self.done for it in self.named[name]):
                        self.left.remove(name)
                        self.begin(name)
                        if not self.is_terminal:
                            self.tell([name])
                if self.is_terminal:
                    self.tell(list(self.running))
                time.sleep(0.25)
                for name, (run, _, _) in list(self.running.items()):
                    if run.poll() is not None:
                        self.end(name)
        finally:
            self.clear()
            for run, _, _ in self.running.values():
                run.terminate()
            for run, _, _ in self.running.values():
                run.wait()

    def build(self):
        """Builds the program over the libraries."""
        folder, log = TOP / "crates" / PROGRAM, TOP / "out/prove/log"
        self.tell([PROGRAM])
        with open(log, "wb") as out:
            # The program gets no words, and ends at once.
            subprocess.run(["rt", "run"], cwd=folder, stdin=subprocess.DEVNULL, stdout=subprocess.DEVNULL, stderr=out)
        self.clear()
        if not os.access(folder / "out" / PROGRAM, os.X_OK):
            raise Failed(f"the program could not be built; what rt says is in {log}")


def main():
    wanted, named = sys.argv[1:], uses()
    for name in wanted:
        if name not in named:
            raise Failed(f"crates.txt has no crate {name}")
    if shutil.which("rt") is None:
        raise Failed("there is no rt: the Rattle kit isn't installed")
    for it in (signal.SIGTERM, signal.SIGHUP):
        signal.signal(it, lambda number, _: sys.exit(128 + number))
    ROOM.mkdir(parents=True, exist_ok=True)
    with open(ROOM / "lock", "w") as lock:
        try:
            fcntl.flock(lock, fcntl.LOCK_EX | fcntl.LOCK_NB)
        except BlockingIOError:
            print("nuit: waiting for another call that proves the crates", file=sys.stderr)
            fcntl.flock(lock, fcntl.LOCK_EX)
        names = below(wanted or named[PROGRAM], named)
        proving = Proving(names, named, not wanted)
        if not wanted and os.access(TOP / "crates" / PROGRAM / "out" / PROGRAM, os.X_OK):
            return
        proving.prove()
        if not wanted:
            proving.build()


if __name__ == "__main__":
    try:
        main()
    except Failed as why:
        sys.exit(f"nuit: {why}")
    except KeyboardInterrupt:
        print("nuit: interrupted; the next call goes on here", file=sys.stderr)
        sys.exit(130)
