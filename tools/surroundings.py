#!/usr/bin/env python3
"""Runs sessions in broken surroundings, and looks at what was written and at the status.

Usage: tools/surroundings.py PROGRAM SESSION..     (wants a C compiler, cc, on the path)

PROGRAM is the built program (crates/pld/out/pld), a SESSION a file with a session's text. Of each session, by `plain`: every
allocation is refused in turn; every read of the input and every write of a line fails in turn; reads give one byte, writes take
one byte; and with these again every read and every write fails in turn. By `work --workers 2`: every allocation is refused in
turn, and no thread can be started.

Each run has to end as the program's documents say:
- a refused allocation: status 5, and what was written are whole lines from the front of the session's replies; or as ever;
- a read that fails: status 3, and whole lines from the front; all the replies where only the end was still to be read;
- a write that fails: status 4, and just what was written before; nothing is written after it;
- reads or writes of one byte, no threads: as ever.
The last line counts the runs. The exit status is 1 where a run ended otherwise, and then the first few are named.
"""
import os
import subprocess
import sys
import tempfile

PLAIN = ["plain"]
WORK = ["work", "--workers", "2"]
ERRORS = {3: b"pld: read fault\n", 4: b"pld: write fault\n", 5: b"pld: out of memory\n"}


class Surroundings:
    def __init__(self, program, library):
        self.program = program
        self.library = library
        self.runs = 0
        self.bad = []

    def run(self, words, text, **what):
        env = dict(os.environ, LD_PRELOAD=self.library)
        env.update({name.upper(): str(value) for name, value in what.items()})
        done = subprocess.run([self.program, *words], input=text, capture_output=True, env=env, timeout=60)
        self.runs += 1
        return done.returncode, done.stdout, done.stderr

    def judge(self, good, name, words, what, got):
        if not good:
            self.bad.append(f"{name} {' '.join(words)} {what}: status {got[0]}, {len(got[1])} bytes")

    def as_ever(self, name, words, text, whole, **what):
        got = self.run(words, text, **what)
        self.judge(got == whole, name, words, what, got)

    def allocations(self, name, words, text, whole):
        """Refuses each allocation in turn, until a run is as ever with fewer allocations than that."""
        n, ever = 0, 0
        while ever < 8:
            n += 1
            got = self.run(words, text, refuse_alloc=n)
            ever = ever + 1 if got == whole else 0
            if got != whole:
                front = whole[1].startswith(got[1]) and (got[1] == b"" or got[1].endswith(b"\n"))
                self.judge(got[0] == 5 and got[2] == ERRORS[5] and front, name, words, f"allocation {n}", got)
        return n - ever

    def reads(self, name, text, whole, pieces, **what):
        """Lets each read fail in turn: those of the pieces, and the one that tells the end."""
        for n in range(1, pieces + 2):
            got = self.run(PLAIN, text, fail_read=n, **what)
            front = whole[1].startswith(got[1]) and (got[1] == b"" or got[1].endswith(b"\n"))
            good = got[0] == 3 and got[2] == ERRORS[3] and front
            quits = whole[0] in (0, 1) and got == whole
            self.judge(good or quits, name, PLAIN, f"read {n} {what}", got)

    def writes(self, name, text, whole, parts, **what):
        """Lets each write fail in turn."""
        for n in range(1, len(parts) + 1):
            got = self.run(PLAIN, text, fail_write=n, **what)
            good = got[0] == 4 and got[2] == ERRORS[4] and got[1] == b"".join(parts[: n - 1])
            self.judge(good, name, PLAIN, f"write {n} {what}", got)

    def session(self, name, text):
        whole = self.run(PLAIN, text)
        lines = whole[1].splitlines(keepends=True)
        count = self.allocations(name, PLAIN, text, whole)
        self.reads(name, text, whole, -(-len(text) // 4096))
        self.writes(name, text, whole, lines)
        self.as_ever(name, PLAIN, text, whole, short_reads=1)
        self.as_ever(name, PLAIN, text, whole, short_writes=1)
        self.reads(name, text, whole, len(text), short_reads=1)
        self.writes(name, text, whole, [bytes([b]) for b in whole[1]], short_writes=1)
        work = self.run(WORK, text)
        self.allocations(name, WORK, text, work)
        self.as_ever(name, WORK, text, work, no_threads=1)
        print(f"{name}: {len(lines)} lines, {count} allocations", flush=True)


def main():
    program, *sessions = sys.argv[1:]
    here = os.path.dirname(os.path.abspath(__file__))
    with tempfile.TemporaryDirectory() as folder:
        library = os.path.join(folder, "surroundings.so")
        subprocess.run(["cc", "-O1", "-shared", "-fPIC", "-o", library, os.path.join(here, "surroundings.c"), "-ldl"], check=True)
        around = Surroundings(os.path.abspath(program), library)
        for session in sessions:
            with open(session, "rb") as file:
                around.session(os.path.basename(session), file.read())
    for line in around.bad[:20]:
        print(line)
    print(f"{len(sessions)} sessions, {around.runs} runs, {len(around.bad)} that ended otherwise")
    return 1 if around.bad or not sessions else 0


if __name__ == "__main__":
    sys.exit(main())
