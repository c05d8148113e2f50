#!/usr/bin/env python3
"""Measures the program on databases that run.sh made: measure.py [--count] OUT PROGRAM ORIGINAL NAME..

ORIGINAL may be empty. It prints tables of Markdown."""
import os
import random
import re
import subprocess
import sys

sys.dont_write_bytecode = True
import meter  # noqa: E402

count = sys.argv[1] == "--count"
out, program, original, *names = sys.argv[1 + count :]
programs = [program, original] if original else [program]
CACHES = ["--cache-sim=yes", "--D1=32768,8,64", "--LL=33554432,16,64", "--cachegrind-out-file=/dev/null"]


def addresses_of(name):
    """The lists of addresses of a database's code, each with what it is called: made once, from one seed."""
    text = open(f"{out}/{name}.src/sections.txt").read()
    found = re.search(r"Name: \.text .*?VirtualSize: (0x\w+)\s+VirtualAddress: (0x\w+)", text, re.S)
    size, start = int(found[1], 16), int(found[2], 16)
    chance = random.Random(11)
    some = lambda n: [start + chance.randrange(size) for _ in range(n)]
    lists = {"none": [], "1": some(1), "1,000 at random": some(1000), "100,000 at random": some(100000)}
    lists["100,000 in order"] = sorted(some(100000))
    for words, asked in lists.items():
        file = f"{out}/{name}.{words.replace(',', '').replace(' ', '_')}"
        with open(file, "w") as it:
            it.writelines(f"{address:x}\n" for address in asked)
        yield words, file


def once(which, pdb, asked):
    """The processor seconds (user and system) and the greatest memory in MB of a run."""
    with open(asked, "rb") as given:
        seconds, memory, status, _ = meter.measured([which, "frames", pdb], stdin=given)
    if status:
        sys.exit(f"{which} frames {pdb} < {asked}: status {status}")
    return seconds, memory


def written(which, pdb, asked):
    """What a program writes, without the rows of frames, which the ported crate doesn't report."""
    command = [which, "frames", pdb]
    text = subprocess.run(command, stdin=open(asked, "rb"), capture_output=True).stdout
    return re.sub(rb"(?m) @(0x[0-9a-f]{8}\+(\d+|\?\?)|\?\?)$", b"", text)


def same(pdb, asked):
    """Whether both write the same but for rows."""
    return written(program, pdb, asked) == written(original, pdb, asked)


def rounds(pdb, asked):
    """Three rounds, each the least time and the greatest memory of five runs in turn, of each program."""
    for _ in range(3):
        runs = [[once(it, pdb, asked) for it in programs] for _ in range(5)]
        yield [(min(r[i][0] for r in runs), max(r[i][1] for r in runs)) for i in range(len(programs))]


def row_of(pdb, words, asked):
    found = list(rounds(pdb, asked))
    least = [(min(r[i][0] for r in found), max(r[i][1] for r in found)) for i in range(len(programs))]
    cells = [words] + [cell for seconds, memory in least for cell in (f"{seconds:.3g}", f"{memory:.0f}")]
    if original:
        ratios = [r[0][0] / r[1][0] for r in found]
        cells += [f"{min(ratios):.2f} to {max(ratios):.2f}", f"{least[0][1] / least[1][1]:.2f}"]
        cells[0] += "" if same(pdb, asked) else " (NOT THE SAME BYTES)"
    return "| " + " | ".join(cells) + " |"


def counted(which, pdb, asked):
    """Millions of instructions, and of lines that the first cache and the last one miss."""
    words = ["valgrind", "--tool=cachegrind", *CACHES, which, "frames", pdb]
    text = subprocess.run(words, stdin=open(asked, "rb"), stdout=subprocess.DEVNULL, stderr=subprocess.PIPE, text=True).stderr
    number = lambda label: int(re.search(label + r":\s+([\d,]+)", text)[1].replace(",", "")) / 1e6
    return [f"{number('I +refs'):,.0f}", f"{number('D1 +misses'):.1f}", f"{number('LLd misses'):.1f}"]


def print_table(head, rows):
    print("| " + " | ".join(head) + " |\n|" + "---|" * len(head))
    for row in rows:
        print(row, flush=True)
    print()


lists = {name: list(addresses_of(name)) for name in names}
for name in names:
    pdb = f"{out}/{name}.pdb"
    head = [f"{os.path.getsize(pdb) / 1e6:.0f} MB: `frames`, addresses", "seconds", "MB"]
    if original:
        head += ["ported crate, seconds", "MB", "ratios of time", "of memory"]
    print_table(head, (row_of(pdb, *it) for it in lists[name]))
if count:
    head = ["", "instructions, millions", "first cache misses, millions", "last cache misses, millions"]
    head = [head[0]] + [cell for it in head[1:] for cell in ([it, "ported crate"] if original else [it])]
    rows = []
    for name in names:
        for words, asked in lists[name][-2:]:
            each = [counted(it, f"{out}/{name}.pdb", asked) for it in programs]
            rows.append("| " + " | ".join([f"{name}, {words}"] + [cell for it in zip(*each) for cell in it]) + " |")
    print_table(head, rows)
