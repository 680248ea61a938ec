"""Changes of files: of their bytes, of their lines and names, and of their tokens."""
import string

from programs import GREATEST, LEAST
from plain import RESERVED
from sentences import ANY, LETTERS, NAMES, NUMBERS, OPERATORS, PREFIXED, QUOTED, SEPARATOR, SYMBOLS

WORDS = [
    *sorted(RESERVED), "true", "args", "main", "x", "v1", "v2", "+", "-", "*", "/", "%", "<", "<=", ">", ">=", "==", "!=", "&&", "=", "<-",
    "until", "to", "{", "}", "{}", "} else {", "else if", "(", ")", '"', "\\", '""', "//", ";", ".", ",", ":", "Port.get()", "Port.put(1)",
    "0", "-0", "00", "1", "+1", "01", "-1", str(GREATEST), str(GREATEST + 1), str(LEAST), str(LEAST - 1), "1" * 40, "\t", "\r", " ", "\n",
    "'", "'a'", "'a", "/*", "*/", '"""', "\\n", "\\q", "\\ud800", "_", "@", "=>", "case", "[", "]", "`", "\u00e9", "\u00a0", "\u2028", "\0", "1a",
    "Contract(", "l\"", "@pure ", "@enum ", "import ", "package a\n",
]
ILL_FORMED = [b"\xff", b"\xc3", b"\xed\xa0\x80", b"\xc0\x80", b"\xf4\x90\x80\x80", b"\xe2\x82"]
# What no token begins or ends with, or might, in the middle of a file
FAULTS = [
    b'"a', b'"a\n"', b'"\\q"', b'"\\u12"', b'"\\ud800"', b'"\\"', b'"\\u0041\\\\"', b"'\\q'", b"'\\ud800'", b"'\\", b"'\\n", b"'+", b"'", b"'ab'", b"''",
    b"'" * 3, b"007", b"00", b"1a", b"0x1", b"1_", b"1\xc3\xa9", b"1" * 38, b"1" * 39, b"0" * 39, b"/*", b"/* /* */", b"*/", b"//", b'"""', b'"""a""',
    b'a"', b'a"""', b'_"a"', b'l"', b'l"\\"', b";", b"`a`", b"$", b"\0", b"\x7f", b"\xc2\xa0", b"\xe2\x80\xa8", b"\xef\xbb\xbf", b"\xc3\xa9", b"\xcc\x81",
    b"\xe2\x82\xac", b"\x0b", b"\x0c", *ILL_FORMED, b'"\xff"', b"// \xff\n", b"'\xff'", b'"\xff', b'"\xff\\q"', b"/* \xff", b'a"\xc3"', b"1\xff", b"a\xff",
    b"\xf0\x9d\x93\x90", b"+/*", b"+//",
]
TOKENS = [*ANY, *"( ) [ ] { }".split(), SEPARATOR, *"while for return this extends with override class trait import package var".split()]
DECLARING = {"class", "trait", "object", "def", "val", "var", "override"}
NOTES = "enum range bits datatype record sig msig pure strictpure".split()


def changed_bytes(source, data):
    """The bytes with one of them changed, left out or twice, two neighbours swapped, or a word or ill-formed bytes put somewhere."""
    at = source.randrange(len(data))
    change = source.randrange(7)
    if change == 0:
        return data[:at] + bytes([source.randrange(256)]) + data[at + 1:]
    if change == 1:
        return data[:at] + data[at + 1:]
    if change == 2:
        return data[:at] + data[at:at + 1] + data[at:]
    if change == 3:
        return data[:at] + data[at + 1:at + 2] + data[at:at + 1] + data[at + 2:]
    if change == 4 and source.random() < 0.3:
        return data[:at] + source.choice(ILL_FORMED) + data[at:]
    return data[:at] + source.choice(WORDS).encode() + data[at:]


def changed_words(source, data):
    """The bytes with one word put for another one, of the file or of any."""
    lines = data.decode("latin-1").split("\n")
    at = source.randrange(len(lines))
    words = lines[at].split(" ")
    others = WORDS if source.random() < 0.5 else [word for line in lines for word in line.replace("(", " ").replace(")", " ").split()]
    words[source.randrange(len(words))] = source.choice(others).encode().decode("latin-1")
    lines[at] = " ".join(words)
    return "\n".join(lines).encode("latin-1")


def changed_names(source, data):
    """The bytes with one letter or number put for another one."""
    places = [at for at, byte in enumerate(data) if chr(byte) in string.ascii_letters + string.digits]
    if not places:
        return data
    at = source.choice(places)
    return data[:at] + source.choice(string.ascii_letters + string.digits).encode() + data[at + 1:]


def changed_lines(source, data):
    """The bytes with a line left out, twice, or somewhere else, or indented otherwise."""
    lines = data.split(b"\n")
    at, other = source.randrange(len(lines)), source.randrange(len(lines))
    change = source.randrange(4)
    if change == 0:
        del lines[at]
    elif change == 1:
        lines.insert(other, lines[at])
    elif change == 2:
        lines[at], lines[other] = lines[other], lines[at]
    else:
        lines[at] = b" " * source.randrange(9) + lines[at].lstrip(b" ")
    return b"\n".join(lines)


def cut_off(source, data):
    return data[:source.randrange(len(data) + 1)]


def with_faults(source, data):
    """The bytes with some of these put in, mostly with blanks around them, and mostly behind the first line."""
    for _ in range(source.choice([1, 1, 2, 3])):
        start = data.find(b"\n") + 1 if source.random() < 0.9 else 0
        at = source.randint(start, len(data))
        fault = source.choice(FAULTS)
        data = data[:at] + (fault if source.random() < 0.4 else b" " + fault + source.choice([b" ", b"\n"])) + data[at:]
    return data


def changed_text(source, data):
    """The bytes with one of these changes."""
    return source.choice([changed_bytes, changed_bytes, changed_words, changed_names, changed_lines])(source, data or b"\n")


def alike(word):
    """The spellings that may stand where this one does, mostly."""
    return next((group for group in (NAMES, NUMBERS, QUOTED, SYMBOLS, OPERATORS, LETTERS, PREFIXED, NOTES) if word in group), TOKENS)


def changed_tokens(source, words):
    """The spellings of a file with one left out, put in or replaced, two swapped, a run of them twice or left out, one more note, a bracket
    changed, or cut off."""
    words = list(words) or [SEPARATOR]
    at, other = source.randrange(len(words)), source.randrange(len(words))
    change = source.randrange(14)
    new = source.choice(TOKENS) if source.random() < 0.7 else source.choice(words)
    if change == 0:
        del words[at]
    elif change in (1, 2):
        words.insert(at, new)
    elif change == 3:
        words[at] = new
    elif change in (4, 9, 10):
        words[at] = source.choice(alike(words[at]))
    elif change in (11, 12):
        ends = [0, *(place + 1 for place, word in enumerate(words) if word == SEPARATOR)]
        start = source.randrange(len(ends))
        lines = words[ends[start]:ends[min(start + source.randint(1, 3), len(ends) - 1)]]
        words[ends[start]:ends[start] + len(lines)] = source.choice([[], lines + lines])
    elif change == 5:
        words[at], words[other] = words[other], words[at]
    elif change == 6:
        words[at:at] = words[other:other + source.randint(1, 12)]
    elif change == 7:
        del words[at:at + source.randint(1, 6)]
    elif change == 8:
        places = [place for place, word in enumerate(words) if word in DECLARING]
        if places:
            place = source.choice(places)
            words[place:place] = ["@", source.choice(NOTES)]
    else:
        places = [place for place, word in enumerate(words) if word in "()[]{}" or word == SEPARATOR]
        if places:
            place = source.choice(places)
            words[place:place + 1] = source.choice([[], [source.choice("()[]{}")], [words[place]] * 2])
    return words[:at] if source.random() < 0.05 else words
