"""What slangc is to answer to files: to `check`, and to `run` where it is to run them."""
import functools
import sys

from grammar import Chart, refusal
from plain import plain_of
from programs import expected
from rules import broken
from tokens import Broken, place_of, tokens
from trees import tree_of

NOT_BUILT = (b"", 77, b"not built\n")
sys.setrecursionlimit(1000000)


@functools.lru_cache(maxsize=64)
def tree_or_fault(data):
    """The tree of a file, or None and the rule that it breaks with its byte."""
    try:
        chart = Chart(tokens(data))
    except Broken as fault:
        return None, (fault.rule, fault.place)
    fault = refusal(chart, data)
    if fault is None:
        tree = tree_of(chart)
        fault = broken(tree)
    return (tree, None) if fault is None else (None, fault)


def read(data):
    """The tree of a file. Broken where it breaks a rule."""
    tree, fault = tree_or_fault(data)
    if fault:
        raise Broken(*fault)
    return tree


def trees_of(files):
    """The trees of files, which are names and bytes. Broken by the first one that breaks a rule, with the line to tell."""
    trees = []
    for name, data in files:
        try:
            trees.append(read(data))
        except Broken as fault:
            line, column = place_of(data, fault.place)
            return None, (b"", 65, f"{name}:{line}:{column}: {fault.rule}\n".encode())
    return trees, None


def program_of(files):
    """The statements of a plain program and the atom that it returns, or the answer where the files are none."""
    trees, answer = trees_of(files)
    if answer:
        return None, answer
    found = plain_of(trees[0], files[0][1]) if len(files) == 1 else None
    return found, None if found else NOT_BUILT


def check_answer(files):
    """What `check` gives of the files."""
    return program_of(files)[1] or (b"accepted\n", 0, b"")


def run_answer(files, given, turns):
    """What `run` gives of the files, with this input, in so many turns."""
    found, answer = program_of(files)
    return answer or expected(*found, given, turns, files[0][0])
