"""Random sentences of the grammar, as lists of spellings, and files that spell them with any blanks, comments and layout. The sentences are
made apart from the grammar's data: each has to be accepted by it."""
import functools

from tokens import Broken, Regions, Unknown, can_begin, can_end, cut, tokens

SEPARATOR = "\n"
NAMES = ["a", "b", "x", "foo", "Mode", "Z", "B", "T", "F", "until", "to", "Contract", "Invariant", "l", "u8", "org", "sireum", "App", "main", "x_1",
         "_y", "\u00e9", "\u03b1\u03b2", "\U0001d4d0", "abstract1", "s"]
NUMBERS = ["0", "1", "7", "42", "9223372036854775807", "1" + "0" * 37]
QUOTED = ['""', '"a"', '"a b"', '"\\n\\t\\"\\\\\\\'"', '"\\u0041\\uffff"', '"\u00e9 {("', '"//"', '"/*"', '"""a "b" \\\n(c"""']
LETTERS = ["'a'", "'\\''", "'''", "'\\'", "'\\u00e9'", "'\u00e9'", "' '", "'\"'", "'0'"]
SYMBOLS = ["'a", "'type", "'\u00e9x", "'_y", "'Off"]
PREFIXED = ['u8"7"', 's"x\\"', 'l"y"', 'l"""z\n("""', 'return"a"', 'temp"-3"', '\u00e9""']
SKIPPED = ['l"y"', 'l"""z\n("""', 'l""', 'l"""\n  {{\n"""']
OPERATORS = "| || |^ & && == != < <= > >= << >> >>> :+ + - * / %".split()
BRACKETS = {"(": ")", "[": "]", "{": "}"}
ANY = [*NAMES, *NUMBERS, *QUOTED, *LETTERS, *SYMBOLS, *PREFIXED, *OPERATORS, *"if else case match => = <- : , . _ @ def val object ++ ! ~ # <:".split()]


class Maker:
    """Makes sentences. Notes are of any form where "notes" is `loose`, expression statements where "calls" is, and assignments where "targets"
    is; else they are mostly those that break no rule."""

    def __init__(self, source, loose, size):
        self.source, self.loose, self.size = source, loose, size

    def chance(self, share):
        return self.source.random() < share

    def pick(self, *makers):
        return self.source.choice(makers)()

    def some(self, most, maker, between):
        """Up to so many phrases, with a spelling between them."""
        return self.one_or_more(most, maker, between) if self.chance(0.7) else []

    def one_or_more(self, most, maker, between):
        made = maker()
        for _ in range(self.source.randint(0, max(most - 1, 0))):
            made = [*made, *between, *maker()]
        return made

    def maybe(self, share, maker):
        return maker() if self.chance(share) else []

    def name(self):
        return [self.source.choice(NAMES)]

    def path(self):
        return self.one_or_more(self.source.choice([1, 1, 1, 3]), self.name, ["."])

    def in_brackets(self, opening, inside):
        return [opening, *inside, BRACKETS[opening]]

    # types and patterns

    def type(self, room=3):
        if room == 0 or self.chance(0.7):
            return self.path()
        return [*self.path(), *self.in_brackets("[", self.one_or_more(2, lambda: self.type(room - 1), [","]))]

    def written(self):
        return [":", *self.type()]

    def pattern(self, room):
        if room > 0 and self.chance(0.3):
            return [*self.path(), *self.in_brackets("(", self.some(3, lambda: self.pattern(room - 1), [","]))]
        return self.pick(
            lambda: ["_", *self.maybe(0.3, self.written)],
            lambda: [*self.name(), *self.maybe(0.3, self.written)],
            lambda: [*self.name(), ".", *self.path()],
            lambda: [*self.maybe(0.4, lambda: ["-"]), self.source.choice(NUMBERS)],
            lambda: [self.source.choice([*QUOTED, *LETTERS, *PREFIXED, "T", "F"])],
        )

    # expressions

    def literal(self):
        return [self.source.choice(self.source.choice([NUMBERS, NUMBERS, QUOTED, LETTERS, PREFIXED]))]

    def field(self, room):
        return [*self.name(), "=", *self.expr(room)]

    def arguments(self, room):
        if self.chance(0.15):
            return self.in_brackets("(", self.one_or_more(2, lambda: self.field(room), [","]))
        return self.in_brackets("(", self.some(3, lambda: self.expr(room), [","]))

    def suffix(self, room):
        return self.pick(
            lambda: [".", *self.name()],
            lambda: self.arguments(room),
            lambda: self.arguments(room),
            lambda: self.in_brackets("[", self.one_or_more(2, lambda: self.type(1), [","])),
        )

    def postfix(self, room):
        made = self.pick(self.name, self.name, self.literal, lambda: ["this"], lambda: self.in_brackets("(", self.expr(room - 1)) if room else ["this"])
        while room > 0 and self.chance(0.35):
            made = [*made, *self.suffix(room - 1)]
        return made

    def prefix(self, room):
        return [*self.maybe(0.15, lambda: [self.source.choice("-!~")]), *self.postfix(room)]

    def infix(self, room):
        made = self.prefix(room)
        while room > 0 and self.chance(0.3):
            made = [*made, self.source.choice(OPERATORS), *self.prefix(room - 1)]
        return made

    def cases(self, room):
        made = []
        for _ in range(self.source.randint(1, 2)):
            guard = self.maybe(0.2, lambda: ["if", *self.expr(room)])
            body = self.expression_case(room) if self.chance(0.6) else self.statements(room, 2)
            made += ["case", *self.pattern(min(room, 2)), *guard, "=>", *body]
        return ["{", *made, "}"]

    def expression_case(self, room):
        return self.opened(self.infix(room))

    def expr(self, room):
        if room > 0 and self.chance(0.1):
            return ["if", *self.in_brackets("(", self.expr(room - 1)), *self.expr(room - 1), "else", *self.expr(room - 1)]
        if room > 0 and self.chance(0.06):
            return [*self.infix(room - 1), "match", *self.cases(room - 1)]
        return self.infix(room)

    # statements

    @staticmethod
    def opened(made):
        """An expression at the beginning of a statement: it begins with nothing that is skipped."""
        if made[0].startswith('l"') or (made[0] in ("Contract", "Invariant") and made[1:2] == ["("]):
            return ["a", *made[1:]]
        return made

    def target(self, room):
        """The left side of an assignment."""
        if self.loose == "targets" and self.chance(0.5):
            wrong = self.pick(self.literal, lambda: self.infix(room), lambda: self.expr(room), lambda: [*self.name(), *self.arguments(0)],
                              lambda: [*self.name(), *self.suffix(1)], lambda: ["(", *self.expr(0), ")", ".", *self.name()])
            return self.opened(wrong)
        made = self.pick(self.name, self.name, lambda: ["this"], lambda: self.in_brackets("(", self.name()))
        while self.chance(0.3):
            made = [*made, *self.pick(lambda: [".", *self.name()], lambda: self.in_brackets("(", self.expr(0)))]
        return self.opened(made)

    def call(self, room):
        """An expression statement."""
        if self.loose == "calls" and self.chance(0.5):
            return self.opened(self.expr(room))
        if room > 0 and self.chance(0.25):
            return [*self.opened(self.infix(room - 1)), "match", *self.cases(room - 1)]
        return self.opened([*self.postfix(max(room - 1, 0)), *self.in_brackets("(", self.some(2, lambda: self.expr(max(room - 1, 0)), [","]))])

    def balanced(self, room):
        made = []
        for _ in range(self.source.randint(0, 4)):
            if room and self.chance(0.3):
                made += self.in_brackets(self.source.choice("([{"), self.balanced(room - 1))
            else:
                made.append(self.source.choice(ANY))
        return made

    def skip(self):
        if self.chance(0.4):
            return [self.source.choice(SKIPPED)]
        return [self.source.choice(["Contract", "Invariant"]), *self.in_brackets("(", self.balanced(2))]

    def variable(self, room):
        return [self.source.choice(["val", "var"]), *self.name(), *self.maybe(0.6, self.written), "=", *self.expr(room)]

    def choice(self, room):
        made = ["if", *self.in_brackets("(", self.expr(room)), *self.block(room)]
        if self.chance(0.4):
            made += ["else", *(self.choice(room - 1) if room > 0 and self.chance(0.4) else self.block(room))]
        return made

    def statement(self, room):
        chance = self.source.random()
        if self.loose in ("calls", "targets") and self.chance(0.4):
            return self.call(room - 1) if self.loose == "calls" else [*self.target(max(room - 1, 0)), "=", *self.expr(max(room - 1, 0))]
        if room <= 0 or chance < 0.2:
            return self.variable(max(room, 0))
        if chance < 0.35:
            return [*self.target(room - 1), "=", *self.expr(room - 1)]
        if chance < 0.55:
            return self.call(room - 1)
        if chance < 0.65:
            return self.choice(room - 1)
        if chance < 0.72:
            return ["while", *self.in_brackets("(", self.expr(room - 1)), *self.block(room - 1)]
        if chance < 0.8:
            bounds = [*self.name(), "<-", *self.expr(room - 1), self.source.choice(["until", "to"]), *self.expr(room - 1)]
            return ["for", *self.in_brackets("(", bounds), *self.block(room - 1)]
        if chance < 0.9:
            return ["return", *self.maybe(0.8, lambda: self.expr(room - 1))]
        return self.skip()

    def statements(self, room, most):
        return self.some(most, lambda: self.statement(room), [SEPARATOR])

    def block(self, room):
        return ["{", *self.statements(room, 4), "}"]

    # declarations

    def note(self, right):
        """A note of any form, or one that is right."""
        if not self.chance(0.4 if self.loose == "notes" else 0.01):
            return ["@", *right()]
        fields = self.maybe(0.5, lambda: self.in_brackets("(", self.one_or_more(3, lambda: [*self.note_name(), "=", *self.note_value()], [","])))
        return ["@", self.source.choice("enum range bits datatype record sig msig pure strictpure foo".split()), *fields]

    def note_name(self):
        return [self.source.choice(["min", "max", "index", "signed", "width", "x"])]

    def note_value(self):
        return self.pick(self.number, self.number, self.truth, lambda: self.expr(1))

    def number(self):
        return [*self.maybe(0.4, lambda: ["-"]), self.source.choice(NUMBERS)]

    def truth(self):
        return [self.source.choice("TF")]

    def notes(self, right):
        """The notes before a declaration, which asks for a right one or for none."""
        made = self.note(right) if right else []
        if self.chance(0.15 if self.loose == "notes" else 0.01):
            made = self.source.choice([[], [*made, *self.note(right or (lambda: ["pure"]))]])
        return made

    def fields_note(self, name, needed, optional):
        pairs = [[key, "=", *value()] for key, value in needed] + [[key, "=", *value()] for key, value in optional if self.chance(0.4)]
        self.source.shuffle(pairs)
        made = pairs[0]
        for pair in pairs[1:]:
            made = [*made, ",", *pair]
        return [name, *self.in_brackets("(", made)]

    def integers_note(self):
        if self.chance(0.5):
            return self.fields_note("range", [("min", self.number), ("max", self.number)], [("index", self.truth)])
        return self.fields_note("bits", [("signed", self.truth), ("width", self.number)], [])

    def parameters(self):
        keyword = lambda: self.maybe(0.4, lambda: [self.source.choice(["val", "var"])])
        return self.in_brackets("(", self.some(3, lambda: [*keyword(), *self.name(), *self.written()], [","]))

    def type_parameters(self):
        return self.in_brackets("[", self.one_or_more(2, self.name, [","]))

    def parents(self):
        return ["extends", *self.one_or_more(2, self.type, ["with"])]

    def method(self):
        room = self.source.randint(1, self.size)
        head = [*self.maybe(0.15, lambda: ["override"]), "def", *self.name(), *self.maybe(0.2, self.type_parameters)]
        head += [*self.maybe(0.8, self.parameters), *self.written()]
        chance = self.source.random()
        if chance < 0.2:
            return [*self.notes(self.source.choice([None, lambda: ["pure"], lambda: ["strictpure"]])), *head]
        if chance < 0.7:
            return [*self.notes(self.source.choice([None, None, lambda: ["pure"]])), *head, "=", *self.block(room)]
        return [*self.notes(lambda: ["strictpure"]), *head, "=", *self.expr(room)]

    def member(self):
        if self.chance(0.7):
            return self.method()
        return [*self.notes(None), *self.maybe(0.1, lambda: ["override"]), *self.variable(self.source.randint(0, self.size))]

    def methods(self):
        return self.in_brackets("{", self.some(3, self.method, [SEPARATOR]))

    def enumeration(self):
        names = self.one_or_more(3, lambda: [self.source.choice([*QUOTED, *SYMBOLS])], [SEPARATOR])
        return [*self.notes(lambda: ["enum"]), "object", *self.name(), *self.in_brackets("{", names)]

    def a_class(self):
        kind = self.source.choice(["datatype", "record"])
        head = ["class", *self.name(), *self.maybe(0.2, self.type_parameters), *self.parameters()]
        return [*self.notes(lambda: [kind]), *head, *self.maybe(0.3, self.parents), *self.maybe(0.4, self.methods)]

    def a_trait(self):
        kind = self.source.choice(["datatype", "record", "sig", "msig"])
        head = ["trait", *self.name(), *self.maybe(0.2, self.type_parameters)]
        return [*self.notes(lambda: [kind]), *head, *self.maybe(0.3, self.parents), *self.maybe(0.5, self.methods)]

    def an_object(self):
        body = self.maybe(0.85, lambda: self.in_brackets("{", self.some(4, self.member, [SEPARATOR])))
        return [*self.notes(None), "object", *self.name(), *self.maybe(0.4, self.parents), *body]

    def item(self):
        if self.loose in ("calls", "targets"):
            return self.an_object()
        return self.pick(
            lambda: ["import", *self.path(), *self.maybe(0.4, lambda: [".", "_"])],
            self.enumeration,
            lambda: [*self.notes(self.integers_note), "class", *self.name()],
            self.a_class, self.a_trait, self.an_object, self.an_object, self.an_object,
        )

    def file(self):
        package = self.maybe(0.4, lambda: ["package", *self.path(), SEPARATOR])
        made = [*package, "import", "org", ".", "sireum", ".", "_"]
        for _ in range(self.source.randint(0, 4)):
            made += [SEPARATOR, *self.item()]
        return made


def sentence(source, loose=None):
    """A random file of the grammar, with what is `loose`."""
    return Maker(source, loose, source.choice([1, 2, 3, 4])).file()


# Phrases that stand in one another: before them, what opens one, what is innermost, what closes one, and after them
HEAD = ["import", "org", ".", "sireum", ".", "_", SEPARATOR, "object", "X", "extends", "App", "{", "def", "main", "(", "args", ":", "ISZ", "[",
        "String", "]", ")", ":", "Z", "=", "{"]
FOOT = ["}", "}"]
NESTED = [[part.split() for part in line.split("$")] for line in """
val a : Z = $ ( $ 1 $ ) $
a = $ ( $ b $ ) $
return $ f ( $ x $ ) $
f ( $ g ( x = $ 1 $ ) $ )
val a : $ B [ $ C $ ] $ = d
$ while ( a ) { $ b ( ) $ } $
$ while ( T ) { $ $ } $
$ if ( a ) { $ return $ } $
$ if ( a ) { $ b ( ) $ } else { } $
$ if ( a ) { } else $ if ( a ) { } $ $
$ for ( a <- b until c ) { $ l"d" $ } $
$ a match { case b => $ Contract ( ( c ) ) $ } $
$ a match { case b => $ c ( ) $ } $
val a = $ b match { case c => $ d $ } $
val a = b match { case $ C ( $ d $ ) $ => e }
val a = $ if ( b ) c else $ d $ $
val a = $ if ( b ) $ c $ else d $
val a = $ if ( $ c $ ) a else d $
val a = b $ + c $ + d $ $
val a = b $ . c $ . d $ $
val a = b $ ( ) $ ( ) $ $
val a = b $ [ C ] $ [ D ] $ $
val a = $ - ( $ b $ ) $
val a = $ a + ( $ - 1 $ ) $
val a = $ a == b * c + ( $ 1 $ ) $
a $ . b $ = c $ $
f ( $ f ( a , $ 1 $ ) $ )
Contract ( $ ( $ a $ ) $ )
""".strip().split("\n")]


def nested(source):
    """A file whose phrases stand in one another about as deep as they may, cut off where it happens so."""
    before, opening, inner, closing, after = source.choice(NESTED)
    times = source.choice([*(source.randint(55, 68) for _ in range(12)), *(source.randint(1, 300) for _ in range(6)), 2000])
    words = [*HEAD, *before, *opening * times, *inner, *closing * times, *after, *FOOT]
    return words[:source.randrange(len(HEAD), len(words))] if source.random() < 0.2 else words


@functools.lru_cache(maxsize=None)
def kind_of(word):
    """A spelling as a token by itself."""
    return cut(word.encode())[0][0]


@functools.lru_cache(maxsize=None)
def glued(first, second):
    """Whether two spellings are two tokens with nothing between them."""
    try:
        return [token.text for token, _ in cut((first + second).encode())] == [first, second]
    except (Broken, Unknown):
        return False


BLANKS = [" ", " ", " ", "  ", "\t", "\r", "/**/", " /* a */", "/* /* { */ \u00e9 */"]
FED = ["\n", "\n", "\n  ", "\r\n", "\n\n", " // \u00e9 {\n", "//\n\t", "/*\n*/", " /* // */ \n"]


def gap(source, first, second, feeds, quiet):
    """The blanks between two spellings: with a line feed, without one, or with any. `feeds` is True, False or None."""
    fed = feeds if feeds is not None else source.random() < (0.02 if quiet else 0.1)
    made = "" if quiet else "".join(source.choice(BLANKS) for _ in range(source.choice([0, 0, 0, 1, 2])))
    if fed:
        made += source.choice(FED[:2] if quiet else FED) + ("" if quiet else "".join(source.choice(BLANKS[:6]) for _ in range(source.randrange(2))))
    if not made and (not glued(first, second) or source.random() < 0.5):
        made = " "
    if made.startswith("/") and kind_of(first).kind == "Operator":
        made = " " + made
    return made


def printed(source, words, quiet=None):
    """The bytes of a file that spells these words: a Separator stands where there is one and nowhere else, as far as layout allows it."""
    quiet = source.random() < 0.5 if quiet is None else quiet
    text = source.choice(["// #Sireum", "// #Sireum // \u00e9", "// #Sireum -*- #", "// #Sireum"]) + source.choice(["\n", "\r\n", "\n\n"])
    regions, last, separated = Regions(), None, False
    for word in words:
        if word == SEPARATOR:
            separated = True
            continue
        token = kind_of(word)
        if last is None:
            text += "" if quiet else source.choice(["", " ", "\n", "/* a */"])
        else:
            lays = can_end(kind_of(last)) and can_begin(token) and regions.enabled()
            text += gap(source, last, word, True if separated else False if lays else None, quiet)
        text += word
        regions.take(token)
        last, separated = word, False
    return (text + source.choice(["", "\n", "\n", " // a", "\n/* a */\n"])).encode()


def words_of(data):
    """The spellings of a file's tokens, Separators included."""
    return [token.text or SEPARATOR for token in tokens(data)]


def spells(data, words):
    """Whether a file has just these tokens. Blanks that were put in by chance may spell others."""
    try:
        return words_of(data) == words
    except (Broken, Unknown):
        return False
