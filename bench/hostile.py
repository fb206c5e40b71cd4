#!/usr/bin/env python3
"""What texts cost that are made to be expensive, each beside a good text of equal length.

Usage: bench/hostile.py PROGRAM [RUNS]     (PROGRAM is the built program, crates/pld/out/pld; 3 runs by default)

A line is a pair of texts, their length, and for each the least processor time (user and system, in milliseconds) and the most
memory in use at once (in MiB) of RUNS runs of `PROGRAM plain --rounds 1000`, and how many times as long the hostile one took.
"""
import os
import subprocess
import sys
import tempfile

MOST = 16_777_216
LINK = b"input src w.i0\noutput w.o0 dst\n"
COPY = b"op w soft\nvoid w(in a, out b) { uint32_t x; while (1) { x = read(a); write(b, x); } }\nend\n"


def padded(text, length, line=b"# a comment that says nothing at all, and nothing more\n"):
    """The text with comments behind it, of just this length."""
    lines, rest = divmod(length - len(text), len(line))
    return text + line * lines + b"#" * max(rest - 1, 0) + (b"\n" if rest else b"")


def one_line():
    return b"a" * (MOST - 1) + b"\n"


def operators(body):
    """63 operators, each with as much of this as its text may hold."""
    texts = []
    for k in range(63):
        head = b"op f%02d soft\n" % k
        start = b"void f(in a, out b) { uint32_t x; x = "
        texts.append(head + start + (body * (65_535 // len(body) + 1))[: 65_535 - len(start) - 1] + b"\nend\n")
    return b"".join(texts)


def replaced(length):
    """An operator that is replaced, again and again, by one with as many nodes as an operator may have."""
    text = b"uint32_t x; x = read(a);" + b"x=x+1;" * 240 + b"write(b, x);"
    block = b"replace w soft\nvoid w(in a, out b) { " + text + b" }\nend\n"
    return padded(COPY + block * ((length - len(COPY)) // len(block)), length)


def channels(ports):
    """63 operators in a ring that never comes to rest, so many channels from each to the next, a build, and 64 runs."""
    text = b""
    for k in range(63):
        ins = b", ".join(b"in a%d" % p for p in range(ports))
        outs = b", ".join(b"out b%d" % p for p in range(ports))
        text += b"op f%02d soft\nvoid f(%s, %s) { uint32_t x; while (1) { write(b0, x); x = read(a0); } }\nend\n" % (k, ins, outs)
    text += b"".join(b"connect f%02d.o%d f%02d.i%d\n" % (k, p, (k + 1) % 63, p) for k in range(63) for p in range(ports))
    return text + b"pages 6\nbuild\n" + b"run\n" * 64


def alike():
    """Names that share 31 bytes, in as many edits as there is room for."""
    names = [b"a" * 31 + letter for letter in [b"%c" % c for c in b"bcdefghijklmnopqrstuvwxyzBCDEFGHIJKLMNOPQRSTUVWXYZ0123456789"]]
    text = b"".join(b"op %s soft\nvoid f(in a, out b) { }\nend\n" % name for name in names) + b"pages 6\n"
    pins = b"".join(b"pin %s %d\n" % (name, 1 + k % 63) for k, name in enumerate(names))
    return text + pins * 2000


def apart():
    names = [b"%02d" % k for k in range(60)]
    text = b"".join(b"op f%s soft\nvoid f(in a, out b) { }\nend\n" % name for name in names) + b"pages 6\n"
    pins = b"".join(b"pin f%s %d\n" % (name, 1 + k % 63) for k, name in enumerate(names))
    return text + pins * 2000


def feeds(clear):
    """A feed of 65,536 words, cleared and fed again as often as there is room for."""
    words = b"feed src" + b" 4294967295" * 300 + b"\n"
    block = b"clear src\n" + words * (65_536 // 300) if clear else words * (65_536 // 300)
    return COPY + LINK + block * ((MOST - 1000) // len(block))


PAIRS = [
    ("a line of 16 MB, feeds", one_line, lambda n: padded(feeds(False), n)),
    ("open brackets, replaced", lambda: operators(b"("), replaced),
    ("open blocks, replaced", lambda: operators(b"{"), replaced),
    ("252 channels, 63; 64 runs", lambda: channels(4), lambda n: padded(channels(1), n)),
    ("names alike, apart", alike, lambda n: padded(apart(), n)),
    ("fed again, fed too much", lambda: feeds(True), lambda n: padded(feeds(False), n)),
]


# What runs a program and tells its processor time and memory: a small process, since a child's memory counts from its parent's.
LAUNCHER = """
import os, sys
program, text = sys.argv[1:]
actions = [(os.POSIX_SPAWN_OPEN, 0, text, os.O_RDONLY, 0), (os.POSIX_SPAWN_OPEN, 1, "/dev/null", os.O_WRONLY, 0), (os.POSIX_SPAWN_OPEN, 2, "/dev/null", os.O_WRONLY, 0)]
_, status, used = os.wait4(os.posix_spawn(program, [program, "plain", "--rounds", "1000"], os.environ, file_actions=actions), 0)
print((used.ru_utime + used.ru_stime) * 1000, used.ru_maxrss / 1024, os.waitstatus_to_exitcode(status))
"""


def measure(program, text):
    """Processor time in milliseconds, memory in MiB, and the status."""
    with tempfile.NamedTemporaryFile() as file:
        file.write(text)
        file.flush()
        told = subprocess.run([sys.executable, "-S", "-c", LAUNCHER, program, file.name], capture_output=True, check=True)
    return [float(word) for word in told.stdout.split()]


def main():
    program = os.path.abspath(sys.argv[1])
    runs = int(sys.argv[2]) if len(sys.argv) > 2 else 3
    print(f"{'texts':32} {'bytes':>9} {'ms':>7} {'MiB':>6} {'ms':>7} {'MiB':>6} {'ratio':>6}")
    for name, hostile, good in PAIRS:
        bad_text = hostile()
        texts = [bad_text, good(len(bad_text))]
        rows = [[measure(program, text) for _ in range(runs)] for text in texts]
        (bad_ms, bad_mib), (ms, mib) = [(min(r[0] for r in row), max(r[1] for r in row)) for row in rows]
        print(f"{name:32} {len(bad_text):9} {bad_ms:7.0f} {bad_mib:6.0f} {ms:7.0f} {mib:6.0f} {bad_ms / max(ms, 1):6.1f}", flush=True)


if __name__ == "__main__":
    main()
