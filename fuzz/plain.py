"""The judge of plain trees: whether the tree of a file is a plain program, and its statements as `programs` has them. It is written from the
conditions of plain files in docs/language.md, apart from slangc."""
import re

from programs import COMPARISONS, GREATEST, LEAST
from tokens import WORDS, place_of

DEEPEST = 16  # blocks within blocks
TYPES = ("Z", "B")
RESERVED = WORDS | set(
    "B Z C String S8 S16 S32 S64 U8 U16 U32 U64 ISZ MSZ Unit App T F Port Contract Invariant conversions print println assert assume halt".split()
)
VARIABLE = re.compile("[a-z][A-Za-z0-9]*")
OBJECT = re.compile("[A-Z][A-Za-z0-9]*")
NUMBER = re.compile("-?(0|[1-9][0-9]*)")
TEXT = re.compile(r'"([ !#-\[\]-~]{0,100})"')


class NotPlain(Exception):
    """The tree is no plain program."""


def expect(holds):
    if not holds:
        raise NotPlain()


class Judge:
    """The body of `main`, as it is read from top to bottom. `scope` has the type of each name, and whether it is a var."""

    def __init__(self, data):
        self.data = data
        self.declared = set()

    def line(self, node):
        return place_of(self.data, node.start)[0]

    def atom(self, scope, node):
        """The spelling of an atom and its type."""
        if node.label == "Literal":
            text = "".join(node.spelled())
            expect(NUMBER.fullmatch(text) and text != "-0" and LEAST <= int(text) <= GREATEST)
            return text, "Z"
        expect(node.label == "Name")
        name = node.names()[0]
        if name in ("T", "F"):
            return name, "B"
        expect(name in scope)
        return name, scope[name][0]

    def right(self, scope, kind, node):
        """The parts of a right side of this type."""
        if node.label == "Infix":
            left, right = node.nodes()
            operator = node.spelled()[0]
            expect(operator in COMPARISONS if kind == "B" else operator in set("+-*/%"))
            (first, one), (second, other) = self.atom(scope, left), self.atom(scope, right)
            expect(one == other == "Z")
            return [first, operator, second]
        if kind == "Z" and node.shape() == ("Apply", ("Select", ("Name", "Port"), ".", "get"), ("arguments", "(", ")")):
            return ["Port.get()"]
        text, found = self.atom(scope, node)
        expect(found == kind)
        return [text]

    def declare(self, scope, name, kind, is_var):
        expect(VARIABLE.fullmatch(name) and name not in RESERVED and name not in self.declared)
        self.declared.add(name)
        scope[name] = (kind, is_var)

    def block(self, outer, block, depth):
        """The statements of a block that stands in so many others. What is skipped is left out."""
        expect(depth <= DEEPEST)
        scope = dict(outer)
        return [self.statement(scope, node, depth) for node in block.statements() if node.label != "Skip"]

    def statement(self, scope, node, depth):
        line = self.line(node)
        if node.label == "Let":
            kind = type_name(node.node("written").nodes()[0]) if node.node("written") else None
            expect(kind in TYPES)
            value = node.nodes()[-1]
            right = self.right(scope, kind, value)
            name, is_var = node.names()[0], node.has("var")
            self.declare(scope, name, kind, is_var)
            return [self.line(value), "declare", is_var, name, kind, right]
        if node.label == "Assign":
            left, value = node.nodes()
            expect(left.label == "Name" and scope.get(left.names()[0], ("", False))[1])
            name = left.names()[0]
            return [self.line(value), "assign", name, self.right(scope, scope[name][0], value)]
        if node.label == "Call":
            return [line, *self.call(scope, node.nodes()[0])]
        if node.label == "For":
            first, second = node.nodes()[0], node.nodes()[1]
            expect(node.has("until"))
            bounds = [self.atom(scope, first), self.atom(scope, second)]
            expect([kind for _, kind in bounds] == ["Z", "Z"])
            inside, name = dict(scope), node.names()[0]
            self.declare(inside, name, "Z", False)
            return [line, "for", name, bounds[0][0], bounds[1][0], self.block(inside, node.node("block"), depth + 1)]
        expect(node.label in ("While", "IfStatement"))
        condition = self.right(scope, "B", node.nodes()[0])
        blocks = node.nodes("block")
        if node.label == "While":
            if all(inner.label == "Skip" for inner in blocks[0].statements()):
                return [line, "spin", condition]
            return [line, "while", condition, self.block(scope, blocks[0], depth + 1)]
        expect(node.nodes()[-1].label == "block")  # and no `else if`
        first = self.block(scope, blocks[0], depth + 1)
        return [line, "if", condition, first, self.block(scope, blocks[1], depth + 1) if len(blocks) > 1 else None]

    def call(self, scope, node):
        """The form and the parts of a statement that calls."""
        expect(node.label == "Apply" and node.nodes()[0].label == "Name")
        name, given = node.nodes()[0].names()[0], node.node("arguments").nodes()
        expect(len(given) == 1 and name in ("println", "assert", "halt"))
        if name == "assert":
            return ["assert", self.right(scope, "B", given[0])]
        quoted = given[0].label == "Literal" and given[0].parts[0].kind == "Quoted"
        if name == "halt" or quoted:
            found = TEXT.fullmatch(given[0].parts[0].text) if quoted else None
            expect(found)
            return ["halt"] if name == "halt" else ["text", found.group(1)]
        return ["print", self.atom(scope, given[0])[0]]


def type_name(node):
    """The name that a type is, or None."""
    return node.parts[0].names()[0] if len(node.parts) == 1 and len(node.parts[0].parts) == 1 else None


def main_of(tree):
    """The body of `main` of a plain tree."""
    expect([node.label for node in tree.nodes()] == ["library", "Object"])
    app = tree.node("Object")
    expect([node.label for node in app.nodes()] == ["ext", "members"])
    expect(OBJECT.fullmatch(app.names()[0]) and app.names()[0] not in RESERVED)
    parents = app.node("ext").nodes()
    expect([type_name(parent) for parent in parents] == ["App"])
    members = app.node("members").nodes()
    expect([node.label for node in members] == ["Method"])
    method = members[0]
    expect([node.label for node in method.nodes()] == ["params", "Type", "meaning"])
    shape = "def main ( args : ISZ [ String ] ) : Z =".split()
    expect(spellings(method)[: len(shape)] == shape)
    meaning = method.node("meaning").nodes()[0]
    expect(meaning.label == "block")
    return meaning


def spellings(node):
    """The spellings of all tokens of a node."""
    return [text for part in node.parts for text in (spellings(part) if hasattr(part, "parts") else [part.text])]


def plain_of(tree, data):
    """The statements of a plain tree and the atom that it returns, or None."""
    try:
        body = main_of(tree)
        judge, scope = Judge(data), {}
        done = [node for node in body.statements() if node.label != "Skip"]
        expect(done and done[-1].label == "Return" and done[-1].nodes())
        made = [judge.statement(scope, node, 0) for node in done[:-1]]
        returned, kind = judge.atom(scope, done[-1].nodes()[0])
        expect(kind == "Z")
        return made, returned
    except NotPlain:
        return None
