#!/usr/bin/env python3
"""Compares the program with a second interpreter, which was written from the description of the language alone.

    python3 reference/compare.py PROGRAM [--from N] [--cases N]

makes a case for each number: a model, at times one that imports another, an input file and a scenario; of three cases one is
as it was made, one has changed tokens and one has names in the places of others. `check`, `format`, `run` and `play` have to
print the same bytes and end with the same code as here. It says how many cases there were, how they ended, and each
difference; the status is 1 where there is one.
"""
import argparse
import collections
import os
import random
import subprocess
import sys
import tempfile

import canonical
import meaning
from generate import Generator, mutate, rename
from syntax import RESERVED

MODEL, IMPORTED, INPUTS, SCENARIO = "t.asm", "u.asm", "in.txt", "s.avalla"


def files_of(number, chance):
    """The files of a case by name."""
    made, files = Generator(chance), {}
    if chance.random() < 0.3:
        files[IMPORTED] = made.model("u", is_asm=chance.random() < 0.3)
    files[MODEL] = made.model("t", imports=["u"] if files else [])
    files[INPUTS], files[SCENARIO] = made.inputs(), made.scenario(MODEL)
    changed = chance.choice(sorted(files))
    if number % 3 == 1:
        files[changed] = mutate(chance, files[changed])
    elif number % 3 == 2:
        files[MODEL] = rename(chance, files[MODEL], RESERVED)
    return files


def commands_of(files, chance):
    """Words of the program, each with what it has to answer."""
    words = [chance.randint(0, 9) for _ in range(chance.randint(0, 12))]
    steps, budget = chance.choice([None, 0, 3]), chance.choice([None, 0, 2])
    choices = ["--choices", ",".join(map(str, words))] if words else []
    yield ["check", MODEL], meaning.check(files, MODEL)
    yield ["format", MODEL], canonical.print_form(files[MODEL], MODEL)
    yield (
        ["run", MODEL, INPUTS, *(["--steps", str(steps)] if steps is not None else []), *choices],
        meaning.run(files, MODEL, INPUTS, steps, words),
    )
    yield (
        ["play", SCENARIO, *choices, *(["--budget", str(budget)] if budget is not None else [])],
        meaning.play(files, SCENARIO, words, 1000 if budget is None else budget),
    )


def answered(program, folder, words):
    ended = subprocess.run([program, *words], cwd=folder, capture_output=True, timeout=60)
    return ended.stdout.decode(), ended.returncode


def compare(program, number):
    """The codes of a case's commands, and whether all answers are the same."""
    chance = random.Random(number)
    files = files_of(number, chance)
    codes, is_same = [], True
    with tempfile.TemporaryDirectory() as folder:
        for name, text in files.items():
            with open(os.path.join(folder, name), "w", encoding="utf-8") as file:
                file.write(text)
        for words, wanted in commands_of(files, chance):
            found = answered(program, folder, words)
            codes.append(wanted[1])
            if found != wanted:
                is_same = False
                print(f"case {number}: {' '.join(words)}\n  program {found}\n  here    {wanted}")
    return tuple(codes), is_same


def main():
    parser = argparse.ArgumentParser(description=__doc__.split("\n")[0])
    parser.add_argument("program")
    parser.add_argument("--from", dest="first", type=int, default=0)
    parser.add_argument("--cases", type=int, default=300)
    given = parser.parse_args()
    sys.setrecursionlimit(100_000)
    ends, differences = collections.Counter(), 0
    for number in range(given.first, given.first + given.cases):
        codes, is_same = compare(os.path.abspath(given.program), number)
        ends[codes] += 1
        differences += not is_same
    for codes, count in ends.most_common(8):
        print(f"{count} cases: check {codes[0]}, format {codes[1]}, run {codes[2]}, play {codes[3]}")
    print(f"{given.cases} cases, {differences} with a difference")
    return 1 if differences else 0


if __name__ == "__main__":
    sys.exit(main())
