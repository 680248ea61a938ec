"""Random command lines, and a reader of them that is written from docs/command-line.md apart from slangc's."""
import os
import re

from reading import check_answer, run_answer

PLAIN = """// #Sireum
import org.sireum._
object X extends App {
  def main(args: ISZ[String]): Z = {
    println("in %s")
    var a: Z = 0
    while (a < 3) {
      a = a + 1
    }
    return %s
  }
}
"""
# The option of each command, in one letter and in full
OPTIONS = {"check": (None, None), "run": (None, "--turns"), "emit": ("-o", "-o")}
GREATEST_TURNS = 2**63 - 1
MOST_FILES = 255
LONGEST = 255  # bytes of a name, in the systems' folders
DEFAULT_TURNS = 1000000000
# The files of the folder, by their names. A name with nothing is a folder
FILES = {
    "a": PLAIN % ("a", "a"), "b": PLAIN % ("b", "64"), "-": PLAIN % ("-", "-1"), "--": PLAIN % ("--", "0"), "-x": PLAIN % ("-x", "63"),
    "two words": PLAIN % ("two words", "5"), "\u00e9": PLAIN % ("e", "6"), "bad": "no mark", "other": "// #Sireum\nval x = 1\n",
    "open": "// #Sireum\nimport org.sireum._\nobject X {\n  val x: Z = 007\n", "built": "// #Sireum\nimport org.sireum._\nobject X\n", "folder": None,
}
MISSING = ["away", "a/below", "folder/away", "a" * 200]
FAULTY = ["folder", ".", "n" * 300]
VALUES = ["q", "a", "-", "--", "-x", "", "=", "away/q", "n" * 300, "\u00e9"]
TURNS = ["0", "1", "3", "4", "5", "6", "7", "1000", "05", "+5", "-1", "", "5 ", "x", str(GREATEST_TURNS), str(GREATEST_TURNS + 1), "1" * 60]


def random_word(source):
    chance = source.random()
    if chance < 0.45:
        return source.choice([*FILES, *FILES, *MISSING, *FAULTY])
    if chance < 0.6:
        return source.choice(["-o", "-o", "-o="]) + source.choice(["", source.choice(VALUES)])
    if chance < 0.75:
        return source.choice(["--turns", "--turns="]) + source.choice(["", source.choice(TURNS)])
    if chance < 0.85:
        return source.choice(VALUES + TURNS)
    return source.choice(["--", "-", "", "run", "emit", "--help", "-O", "-o-", "--turn", "--turns5", "-turns", "\x01", "-o\n"])


def random_words(source):
    """A command line: any words, or what could be a command with an option and some files, with a few words changed."""
    if source.random() < 0.25:
        return [source.choice(["run", "emit", "check", "check", "", "Run", "-o"])] * source.randint(0, 1) + [random_word(source) for _ in range(source.randrange(6))]
    names = [source.choice(list(FILES))] if source.random() < 0.6 else [source.choice([*FILES, *MISSING, *FAULTY]) for _ in range(source.randrange(4))]
    if source.random() < 0.02:
        names = ["a"] * source.choice([254, 255, 256, 300])
    chance = source.random()
    if chance < 0.25:
        command = "check"
        option = [] if source.random() < 0.9 else source.choice([["-o", "q"], ["--turns", "1"], ["--turns=1"], ["--bit-width", "64"], ["-"]])
    elif chance < 0.6:
        command = "run"
        option = [] if source.random() < 0.3 else source.choice([["--turns", source.choice(TURNS)], ["--turns=" + source.choice(TURNS)]])
    else:
        command = "emit"
        value = source.choice(VALUES)
        option = source.choice([["-o", value], ["-o=" + value], ["-o" + value]])
    if source.random() < 0.3:
        names.insert(source.randint(0, len(names)), "--")
    at = source.randint(0, len(names))
    words = [command, *names[:at], *option, *names[at:]]
    if source.random() < 0.15:
        words[source.randrange(len(words))] = random_word(source)
    if source.random() < 0.1:
        words.insert(source.randint(0, len(words)), random_word(source))
    return words


def command_of(words):
    """The command that the words ask for, the value of its option, and its files, or None."""
    if not words or words[0] not in OPTIONS:
        return None
    short, option = OPTIONS[words[0]]
    rest, value, names = list(words[1:]), None, []
    while rest:
        word = rest.pop(0)
        given = None
        if word == "--":
            names += rest
            break
        if word == "-" or (word and not word.startswith("-")):
            names.append(word)
            continue
        if option is None:
            return None
        if word == option:
            if not rest or (rest[0] != "-" and (rest[0] == "" or rest[0].startswith("-"))):
                return None
            given = rest.pop(0)
        elif word.startswith(option + "="):
            given = word[len(option) + 1:]
        elif short and word.startswith(short):
            given = word[len(short):]
        if not given or value is not None:
            return None
        value = given
    if not 1 <= len(names) <= MOST_FILES or "" in names:
        return None
    if words[0] == "check":
        return "check", None, names
    if words[0] == "emit":
        return ("emit", value, names) if value is not None else None
    if value is None:
        return "run", DEFAULT_TURNS, names
    if not re.fullmatch("0|[1-9][0-9]{0,18}", value) or int(value) > GREATEST_TURNS:
        return None
    return "run", int(value), names


def wanted_of(product, words):
    """What slangc is to answer to these words in the folder, and the name of the file that it is to have written, or None."""
    asked = command_of(words)
    if not asked:
        return (b"", 64, b"usage: check, emit, run, step, stack or sample\n"), None
    command, value, names = asked
    for name in names:
        if name in FAULTY or len(name.encode()) > LONGEST:
            return (b"", 73, b"folder fault\n"), None
        if FILES.get(name) is None:
            return (b"", 72, f"no file {name}\n".encode()), None
    files = [(name, FILES[name].encode()) for name in names]
    checked = check_answer(files)
    if checked[1] != 0 or command == "check":
        return checked, None
    if command == "run":
        return run_answer(files, b"", value), None
    written = value + ".c"
    below = value.rpartition("/")[0]
    if (below and FILES.get(below, "") is not None) or len(written.encode()) > LONGEST:
        return (b"", 73, b"folder fault\n"), None
    return (lambda: (f"{written} {len(product.read(written) or b'')} bytes\n".encode(), 0, b"")), written


def check(product, source, count):
    """So many command lines, and some with a word that isn't UTF-8."""
    for name, text in FILES.items():
        if text is None:
            os.mkdir(os.path.join(product.folder, name))
        else:
            product.write(name, text.encode())
    before = sorted(os.listdir(product.folder))
    for number in range(count):
        words = random_words(source)
        wanted, written = wanted_of(product, words)
        found = product.slangc(*words)
        if written:
            wanted = wanted()
            text = product.read(written) or b""
            product.compare(f"the C of words {number}, {words}", (b"int main(void)" in text, 0), (True, 0))
        product.compare(f"words {number}, {words}", found, wanted)
        if written and written not in before:
            os.remove(os.path.join(product.folder, written))
        product.compare(f"the folder after words {number}, {words}", (sorted(os.listdir(product.folder)), 0), (before, 0))
        words.insert(source.randint(0, len(words)), source.choice([b"\xff", b"a\xc3", b"\xed\xa0\x80"]))
        if number % 10 == 0:
            product.compare(f"words {number} with one that isn't UTF-8", product.slangc(*words), (b"", 64, b"usage: check, emit, run, step, stack or sample\n"))
    for name in FILES:
        path = os.path.join(product.folder, name)
        (os.rmdir if FILES[name] is None else os.remove)(path)
    return f"{count} command lines"
