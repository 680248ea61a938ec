"""Random bytes as files: plain files with a few changes, bytes behind the mark, any bytes, and files of the lengths at which a rule begins."""
import os

from changes import changed_bytes, changed_lines, changed_names, changed_words, cut_off
from reading import run_answer
from runs import made, text_of
from tokens import GREATEST_LENGTH, MARK, Unknown

TURNS = 300


def random_file(source):
    chance = source.random()
    if chance < 0.05:
        return source.randbytes(source.randrange(2000))
    if chance < 0.1:
        return MARK + source.randbytes(source.randrange(2000))
    data = text_of(made(source)[0])
    if chance < 0.13:
        return cut_off(source, data)
    for _ in range(source.choice([1, 1, 1, 1, 2, 3])):
        data = source.choice([changed_bytes, changed_words, changed_names, changed_names, changed_lines])(source, data or b"\n")
    return data


def long_files():
    """Files of the lengths at which a rule begins, and of those at which the folder refuses one, by their names."""
    return {
        "empty": b"", "short": MARK[:-1], "just the mark": MARK, "longest": MARK + b" " * (GREATEST_LENGTH - len(MARK)),
        "too long": MARK + b" " * (GREATEST_LENGTH + 1 - len(MARK)), "too long without the mark": b" " * (GREATEST_LENGTH + 1),
        "longest of lines": MARK + b"\n" * (GREATEST_LENGTH - len(MARK)), "longest of comments": MARK + b"\n/*" + b"*" * (GREATEST_LENGTH - len(MARK) - 3),
    }


def check(product, source, count):
    """So many random files, and files of the lengths that matter."""
    ran = 0
    for number in range(count):
        data = random_file(source)
        given = source.randbytes(source.randint(0, 3))
        try:
            wanted = run_answer([("a.scala", data)], given, TURNS)
        except Unknown:
            continue
        product.write("a.scala", data)
        ran += wanted[1] not in (65, 77)
        product.compare(f"file {number}", product.slangc("run", f"--turns={TURNS}", "a.scala", data=given), wanted, "a.scala")
    for name, data in long_files().items():
        product.write(name, data)
        product.compare(f"the file {name}", product.slangc("run", name), run_answer([(name, data)], b"", TURNS))
    for length, wanted in [(2**30, (b"", 65, b"huge:1:1: L1\n")), (2**30 + 1, (b"", 73, b"folder fault\n"))]:
        with open(os.path.join(product.folder, "huge"), "wb") as file:
            file.truncate(length)
        product.compare(f"a file of {length} bytes", product.slangc("run", "huge"), wanted)
        os.remove(os.path.join(product.folder, "huge"))
    return f"{count} random files, {ran} of them plain, and {len(long_files()) + 2} by their lengths"
