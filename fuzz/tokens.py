"""The tokens of a file, or the first rule L that it breaks: a tokenizer apart from slangc's, written from the list of tokens and the
rule of layout in docs/language.md."""
import re
import unicodedata
from collections import namedtuple

MARK = b"// #Sireum"
GREATEST_LENGTH = 4194304  # bytes of a file
MOST_DIGITS = 38
WORDS = set(
    "abstract case catch class def do else extends final finally for forSome if implicit import lazy match new null object override package "
    "private protected return sealed super this throw trait try true false type val var while with yield".split()
)
OPERATOR_BYTES = b"!#%&*+-/:<=>?@\\^|~"
SINGLE_MARKS = b"()[]{},._"
OPERATOR_MARKS = {b":", b"=", b"=>", b"<-", b"@"}
ESCAPES = b"nrtbf\\\"'"
BLANKS = re.compile(b"[ \t\r\n]+")
CHANGED = "\u200c\u200d\u30fb\uff65"  # they continue identifiers since Unicode 15.1
HEX_DIGITS = b"0123456789abcdefABCDEF"
# Layout
ENDING_KINDS = {"Ident", "Number", "Quoted", "Letter", "Symbol", "Prefixed"}
ENDING_SPELLINGS = {"this", "_", "return", ")", "]", "}"}
NOT_BEGINNING = {
    "case", "catch", "else", "extends", "finally", "forSome", "match", "with", "yield", ",", ".", ":", "=", "=>", "<-", "[", "{", ")", "]", "}",
}
SPELLED_KINDS = {"Word", "Mark"}  # the kinds whose spelling layout and grammar look at

Token = namedtuple("Token", "kind text start end")


class Broken(Exception):
    """A rule that is broken: its name and the byte where it stands."""

    def __init__(self, rule, place):
        super().__init__(rule, place)
        self.rule, self.place = rule, place


class Unknown(Exception):
    """A character that this Python's Unicode doesn't know: what it begins can't be told here."""


def first_ill_formed(data):
    """The first byte at which no well-formed UTF-8 character begins, or None."""
    try:
        data.decode("utf-8")
        return None
    except UnicodeDecodeError as error:
        return error.start


def character_at(data, at):
    """The character that begins at a byte and its length, or None and 0."""
    if at >= len(data):
        return None, 0
    if data[at] < 128:
        return chr(data[at]), 1
    for length in (2, 3, 4):
        try:
            return data[at:at + length].decode("utf-8"), length
        except UnicodeDecodeError:
            continue
    return None, 0


def known(character):
    """The character, where all versions of Unicode from this Python's on agree on it."""
    if character in CHANGED or unicodedata.category(character) == "Cn":
        raise Unknown()
    return character


def starts_identifier(character):
    return character is not None and known(character).isidentifier()


def continues_identifier(character):
    return character is not None and ("a" + known(character)).isidentifier()


def identifier_end(data, at):
    """The end of the longest identifier that begins at a byte, or this byte where none does. `_` alone is none."""
    character, length = character_at(data, at)
    if not starts_identifier(character):
        return at
    end = at + length
    while True:
        character, length = character_at(data, end)
        if not length or not continues_identifier(character):
            return at if data[at:end] == b"_" else end
        end += length


def escape_length(data, at):
    """The length of the escape that begins at a backslash, or 0."""
    follows = data[at + 1:at + 2]
    if follows and follows in ESCAPES:
        return 2
    digits = data[at + 2:at + 6]
    if follows == b"u" and len(digits) == 4 and all(digit in HEX_DIGITS for digit in digits) and not 0xD800 <= int(digits, 16) <= 0xDFFF:
        return 6
    return 0


def quoted_end(data, at, start, takes_escapes):
    """The end of the text whose first quotation mark stands at a byte, in a token that starts at `start`. Where the text has escapes, the first
    faulty one is raised, once it is known that the text ends."""
    if data[at:at + 3] == b'"""':
        end = data.find(b'"""', at + 3)
        if end < 0:
            raise Broken("L6", at)
        return end + 3
    here, faulty = at + 1, None
    while here < len(data) and data[here] != 10:
        if data[here] == 34:
            if faulty is not None:
                raise Broken("L5", faulty)
            return here + 1
        if takes_escapes and data[here] == 92:
            if not escape_length(data, here) and faulty is None:
                faulty = here
            here += 1  # what stands behind a backslash ends no text, but a line feed still does
            if here < len(data) and data[here] == 10:
                break
        here += 1
    raise Broken("L4", start)


def comment_end(data, at):
    """The end of the comment that begins at a byte with `/*`."""
    depth, here = 1, at + 2
    while depth:
        opening, closing = data.find(b"/*", here), data.find(b"*/", here)
        if closing < 0:
            raise Broken("L6", at)
        if 0 <= opening < closing:
            depth, here = depth + 1, opening + 2
        else:
            depth, here = depth - 1, closing + 2
    return here


def apostrophe_token(data, at):
    """The Letter or the Symbol that begins at an apostrophe."""
    ends = []
    _, length = character_at(data, at + 1)
    if length and data[at + 1 + length:at + 2 + length] == b"'":
        ends.append(at + 2 + length)
    if data[at + 1:at + 2] == b"\\":
        length = escape_length(data, at + 1)
        if length and data[at + 1 + length:at + 2 + length] == b"'":
            ends.append(at + 2 + length)
        if not length and not ends:
            raise Broken("L5", at + 1)
    if ends:
        return "Letter", max(ends)
    end = identifier_end(data, at + 1)
    if end == at + 1:
        raise Broken("L3", at)
    return "Symbol", end


def number_end(data, at):
    end = at
    while end < len(data) and 48 <= data[end] <= 57:
        end += 1
    if (data[at] == 48 and end > at + 1) or end - at > MOST_DIGITS:
        raise Broken("L8", at)
    if continues_identifier(character_at(data, end)[0]):
        raise Broken("L8", at)
    return end


def operator_end(data, at):
    end = at
    while end < len(data) and data[end] in OPERATOR_BYTES and data[end:end + 2] not in (b"//", b"/*"):
        end += 1
    return end


def piece_at(data, at):
    """The kind and the end of the token or the blank (None) that begins at a byte."""
    byte = data[at]
    blanks = BLANKS.match(data, at)
    if blanks:
        return None, blanks.end()
    if data[at:at + 2] == b"//":
        end = data.find(b"\n", at)
        return None, len(data) if end < 0 else end
    if data[at:at + 2] == b"/*":
        return None, comment_end(data, at)
    end = identifier_end(data, at)
    if end > at:
        if data[end:end + 1] == b'"':
            return "Prefixed", quoted_end(data, end, at, False)
        return ("Word" if data[at:end].decode("latin-1") in WORDS else "Ident"), end
    if byte == 34:
        return "Quoted", quoted_end(data, at, at, True)
    if byte == 39:
        return apostrophe_token(data, at)
    if 48 <= byte <= 57:
        return "Number", number_end(data, at)
    if byte in SINGLE_MARKS:
        return "Mark", at + 1
    end = operator_end(data, at)
    if end > at:
        return ("Mark" if data[at:end] in OPERATOR_MARKS else "Operator"), end
    raise Broken("L3", at)


def cut(data):
    """The tokens without Separators, each with whether a line feed stands before it."""
    made, at, feeds = [], 0, False
    while at < len(data):
        kind, end = piece_at(data, at)
        if kind is None:
            feeds = feeds or b"\n" in data[at:end]
        else:
            made.append((Token(kind, data[at:end].decode("utf-8", "replace"), at, end), feeds))
            feeds = False
        at = end
    return made


class Regions:
    """Where newlines are enabled: the brackets and the `case`s that are open, the last one last."""

    def __init__(self):
        self.open = []

    def take(self, token):
        if token.kind not in SPELLED_KINDS:
            return
        text = token.text
        if text in ("(", "[", "{", "case"):
            self.open.append(text)
        elif text in (")", "]", "}"):
            last = len(self.open) - 1
            while last >= 0 and self.open[last] == "case":
                last -= 1
            if last >= 0:
                del self.open[last:]
        elif text == "=>" and self.open and self.open[-1] == "case":
            self.open.pop()

    def enabled(self):
        return not self.open or self.open[-1] == "{"


def can_end(token):
    return token.kind in ENDING_KINDS or (token.kind in SPELLED_KINDS and token.text in ENDING_SPELLINGS)


def can_begin(token):
    return not (token.kind in SPELLED_KINDS and token.text in NOT_BEGINNING)


def laid(cut_tokens):
    """The tokens with their Separators."""
    made, regions = [], Regions()
    for token, feeds in cut_tokens:
        if made and feeds and can_end(made[-1]) and can_begin(token) and regions.enabled():
            made.append(Token("Separator", "", made[-1].end, made[-1].end))
        made.append(token)
        regions.take(token)
    return made


def tokens(data):
    """The tokens of a file. Broken where it breaks a rule L."""
    if not data.startswith(MARK):
        raise Broken("L1", 0)
    if len(data) > GREATEST_LENGTH:
        raise Broken("L7", 0)
    ill_formed = first_ill_formed(data)
    if ill_formed is None:
        return laid(cut(data))
    try:
        cut(data)
    except Broken as broken:
        if broken.place < ill_formed:
            raise
    raise Broken("L2", ill_formed)


def place_of(data, at):
    """The line and the column of a byte, counted from 1."""
    return data.count(b"\n", 0, at) + 1, at - (data.rfind(b"\n", 0, at) + 1) + 1
