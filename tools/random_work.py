#!/usr/bin/env python3
"""Random designs, each run by `plain` and by `work` with 1, 2, 3 and 8 workers: at rest all of them must answer alike.

    tools/random_work.py PROGRAM [COUNT [SEED]]

The last line says how many designs there were, how many of their runs came to rest, and how many answers differed; the exit status
is 1 where one did. A design whose answers differ is left in a file that the line before names.
"""
import random
import subprocess
import sys
import tempfile

WORKERS = (1, 2, 3, 8)
ROUNDS = "20000"


def operator(rng, name, ins, outs):
    """An operator that goes some turns, reading from some ports and writing to some others."""
    names = [f"i{k}" for k in range(ins)] + [f"o{k}" for k in range(outs)]
    ports = ", ".join([f"in {n}" for n in names[:ins]] + [f"out {n}" for n in names[ins:]])
    acts = []
    for k in range(ins):
        acts.append(f"x = read(i{k}); s = s * 3 + x;")
    for k in range(outs):
        acts += [f"write(o{k}, s {rng.choice('+-^|&*')} {rng.randrange(1, 100)});"] * rng.choice((1, 1, 1, 2))
    for _ in range(rng.randrange(3)):
        acts.append(f"for (j = 0; j < {rng.choice((3, 50, 700))}; j++) {{ s = (s ^ j) + (s >> 1); }}")
    rng.shuffle(acts)
    if rng.random() < 0.3 and len(acts) > 1:
        k = rng.randrange(len(acts))
        acts[k] = f"if (s % {rng.randrange(2, 5)} != 0) {{ {acts[k]} }}"
    turns = rng.choice((1, 5, 20, 60))
    head = "while (1)" if rng.random() < 0.2 else f"for (i = 0; i < {turns}; i++)"
    body = "\n    ".join(acts)
    first = "write(o0, 7);" if outs and rng.random() < 0.3 else ""
    return f"void {name}({ports}) {{\n  uint32_t i; uint32_t j; uint32_t s; uint32_t x;\n  {first}\n  {head} {{\n    {body}\n  }}\n}}"


def design(rng):
    """A session's text: operators, channels between their ports, inputs and outputs for some of the others, and a run."""
    lines = []
    depth = rng.choice((3, 4, 6))
    lines.append(f"pages {depth}")
    many = rng.randrange(1, 7)
    ins, outs = [], []
    for k in range(many):
        a, b = rng.randrange(0, 4), rng.randrange(0, 4)
        if a + b == 0:
            b = 1
        kind = rng.choice(("soft", "hard"))
        lines += [f"op f{k} {kind}", operator(rng, f"f{k}", a, b), "end"]
        ins += [f"f{k}.i{p}" for p in range(a)]
        outs += [f"f{k}.o{p}" for p in range(b)]
    rng.shuffle(ins)
    rng.shuffle(outs)
    hosts_in, hosts_out = min(len(ins), rng.randrange(0, 9)), min(len(outs), rng.randrange(0, 9))
    between = min(len(ins) - hosts_in, len(outs) - hosts_out)
    hosts_in, hosts_out = len(ins) - between, len(outs) - between
    if hosts_in > 8 or hosts_out > 8:
        return None
    for k in range(between):
        lines.append(f"connect {outs[k]} {ins[k]}")
    for k, end in enumerate(ins[between:]):
        lines.append(f"input u{k} {end}")
        words = " ".join(str(rng.randrange(1 << 32)) for _ in range(rng.choice((0, 3, 40, 200))))
        lines.append(f"feed u{k} {words}".rstrip())
    for k, end in enumerate(outs[between:]):
        lines.append(f"output {end} y{k}")
    lines += [f"window {rng.choice((1, 2, 16))}", f"pattern {''.join(rng.choice('tp') for _ in range(depth - 1))}"]
    lines += ["build", "run"]
    return "\n".join(lines) + "\n"


def answer(program, words, text):
    done = subprocess.run([program, *words, "--rounds", ROUNDS], input=text.encode(), capture_output=True, timeout=600)
    return done.returncode, done.stdout


def main():
    program = sys.argv[1]
    count = int(sys.argv[2]) if len(sys.argv) > 2 else 200
    rng = random.Random(int(sys.argv[3]) if len(sys.argv) > 3 else 1)
    made = rested = different = 0
    while made < count:
        text = design(rng)
        if text is None:
            continue
        made += 1
        plain = answer(program, ["plain"], text)
        if b"\nspent " in plain[1]:
            continue
        rested += b"\ndone\n" in plain[1] or b"\nstalled\n" in plain[1]
        for workers in WORKERS:
            other = answer(program, ["work", "--workers", str(workers)], text)
            if other != plain and b"\nspent " not in other[1]:
                different += 1
                with tempfile.NamedTemporaryFile("w", suffix=".pld", delete=False) as left:
                    left.write(text)
                print(f"work --workers {workers} answers otherwise: {left.name}")
    print(f"{made} designs, {rested} at rest, {different} answers differ")
    return 1 if different else 0


if __name__ == "__main__":
    sys.exit(main())
