#!/usr/bin/env python3
"""Attacks slangc from outside, with expectations that are computed here, apart from it.

fuzz/fuzz.py [--program PATH] [--seed S] [--count N] [checks] [programs] [files] [words] [streams] [memory]: all of them where none is named.
From the seed S (1 where it isn't given), N (400) times random files are checked: sentences of the grammar in any layout, with changes of tokens
and bytes, deep ones and plain ones. N random plain programs are run, and each fourth that ends is compiled with `cc -fsanitize=undefined`; N
random files are run, most of them plain files with a few changes; N random command lines are called; streams and files of the system fail in
every way that is listed; and each allocation of some calls is refused in turn. Each call must give the status, the standard output and the
standard error that are expected, and nothing may end by a signal. PATH is the program; where it isn't given, it is that of this repository, which
is built where it must be. A line for each part counts the answers that were expected, and the last line is the count of calls and how many
differed; files of which something else was told are kept in this folder, as `differs-..`. The exit status is 1 where a call differed. It isn't
part of the gate.
"""
import argparse
import random
import sys
import tempfile

import checks
import files
import memory
import runs
import streams
import words
from product import Product

PARTS = {"checks": checks.check, "programs": runs.check, "files": files.check, "words": words.check, "streams": streams.check, "memory": memory.check}


def main():
    given = argparse.ArgumentParser(description=__doc__.split("\n", maxsplit=1)[0])
    given.add_argument("--program")
    given.add_argument("--seed", type=int, default=1)
    given.add_argument("--count", type=int, default=400)
    given.add_argument("parts", nargs="*", choices=[[], *PARTS])
    given = given.parse_args()
    calls, differed = 0, 0
    for part in given.parts or PARTS:
        with tempfile.TemporaryDirectory() as folder:
            product = Product(folder, given.seed, given.program)
            done = PARTS[part](product, random.Random(f"{part} {given.seed}"), given.count)
            answers = ", ".join(f"{answer}: {count}" for answer, count in sorted(product.answers.items()))
            print(f"{part}: {done}; {answers}; {product.differed} differed", flush=True)
            calls, differed = calls + product.calls, differed + product.differed
    print(f"{calls} calls, seed {given.seed}: {differed} differed")
    sys.exit(1 if differed else 0)


main()
