"""Random plain programs in random layout, run and compiled."""
import shutil

from plain import plain_of
from programs import HEAD, Maker, expected, lay_out
from reading import read
from sentences import printed, spells, words_of

SKIPPED = [
    "Contract()", "Contract(Requires(a > 0), Ensures(Res == In(b)))", "Invariant(Modifies(x), { [ ] } (, + =>) case)", 'l"""any { ( text"""', 'l"\\"',
]


def made(source):
    """The lines of a random plain file, its statements, and the atom that it returns."""
    statements, returned = Maker(source).body()
    lines = list(HEAD)
    lay_out(statements, 4, lines)
    return [*lines, f"    return {returned}", "  }", "}"], statements, returned


def text_of(lines):
    return "".join(line + "\n" for line in lines).encode()


def with_skipped(source, lines):
    """The lines of a plain file with some statements between them that are skipped."""
    lines = list(lines)
    for _ in range(source.choice([0, 0, 1, 3])):
        lines.insert(source.randint(len(HEAD), len(lines) - 2), source.choice(SKIPPED))
    return lines


def laid_freely(source, lines):
    """A plain file of these lines, with other blanks, comments and line feeds, and with statements that are skipped."""
    lines = with_skipped(source, lines)
    words = words_of(text_of(lines))
    for _ in range(5):
        data = printed(source, words)
        if spells(data, words):
            return data
    return text_of(lines)


def bare(statements):
    """Statements without their lines. A `while` with nothing in its block is one form, however it is written."""
    kept = []
    for _, form, *parts in statements:
        if form == "while" and not parts[1]:
            form, parts = "spin", parts[:1]
        at = {"if": (1, 2), "while": (1,), "for": (3,)}.get(form, ())
        kept.append([form, *(bare(part) if number in at and part is not None else part for number, part in enumerate(parts))])
    return kept


def plain_file(source):
    """A random plain file, its statements with the lines at which they can halt, and the atom that it returns."""
    lines, statements, returned = made(source)
    if source.random() < 0.3:
        return text_of(lines), statements, returned
    data = laid_freely(source, lines)
    found = plain_of(read(data), data)
    assert found and bare(found[0]) == bare(statements) and found[1] == returned, data
    return data, *found


def check(product, source, count):
    """So many programs: each is run, and each fourth that ends is compiled by `emit` and cc, and run too."""
    compiler = shutil.which("cc")
    compiled = 0
    for number in range(count):
        text, statements, returned = plain_file(source)
        product.write("a.scala", text)
        data = source.randbytes(source.randint(0, 6))
        turns = source.choice([0, 1, 2, 3, 5, 10, 50, 2000])
        wanted = expected(statements, returned, data, turns, "a.scala")
        found = product.slangc("run", f"--turns={turns}", "a.scala", data=data)
        product.compare(f"plain program {number}", found, wanted, "a.scala")
        if compiler and wanted[1] != 67 and number % 4 == 0:
            line, status, note = product.slangc("emit", "-o", "b", "a.scala")
            told = f"b.c {len(product.read('b.c') or b'')} bytes\n".encode()
            product.compare(f"emit of plain program {number}", (line, status, note), (told, 0, b""), "a.scala")
            product.call(compiler, "-std=c11", "-w", "-fsanitize=undefined", "-fno-sanitize-recover=all", "-o", "b", "b.c")
            printed_by_c, ended, _ = product.call("./b", data=data)
            product.compare(f"C of plain program {number}", (printed_by_c, ended), (wanted[0], ended if wanted[1] == 69 else wanted[1]), "b.c")
            compiled += 1
    return f"{count} plain programs, {compiled} of them compiled as C"
