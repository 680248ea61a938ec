"""Rules G3, G4 and G5 on the tree of a file: the first that is broken, by the least byte and then the least number."""
from trees import DECLARATIONS

NOTES = {
    "Enum": {"enum"}, "Ints": {"range", "bits"}, "Class": {"datatype", "record"}, "Trait": {"datatype", "record", "sig", "msig"},
    "Object": set(), "Method": {"pure", "strictpure"}, "Global": set(),
}
NOTED = {"Enum", "Ints", "Class", "Trait"}  # what has to have a note


def is_number(value):
    return value.label == "Literal" and value.parts[-1].kind == "Number"


def is_truth(value):
    return value.label == "Name" and value.names()[0] in ("T", "F")


# The pairs of a note: those that must stand, those that may, and what the value of each is
PAIRS = {
    "range": ({"min", "max"}, {"index"}, {"min": is_number, "max": is_number, "index": is_truth}),
    "bits": ({"signed", "width"}, set(), {"signed": is_truth, "width": is_number}),
}


def body_of(method):
    """The label of a method's body: "block", that of an expression, or None."""
    meaning = method.node("meaning")
    return meaning.nodes()[0].label if meaning else None


def note_fits(note, decl):
    """Whether a note may stand before a declaration, where it is the only one."""
    name = note.names()[0]
    if name not in NOTES[decl.label]:
        return False
    if decl.label == "Method":
        body = body_of(decl)
        if body is not None and (name == "strictpure") == (body == "block"):
            return False
    pairs = note.node("pairs")
    if name not in PAIRS:
        return pairs is None
    if pairs is None:
        return False
    needed, allowed, tests = PAIRS[name]
    fields = [(field.names()[0], field.nodes()[0]) for field in pairs.nodes("field")]
    names = [field for field, _ in fields]
    return len(names) == len(set(names)) and needed <= set(names) <= needed | allowed and all(tests[field](value) for field, value in fields)


def lacks_note(decl):
    """Whether a declaration without notes has to have one."""
    return decl.label in NOTED or (decl.label == "Method" and body_of(decl) not in (None, "block"))


def note_faults(decl):
    notes = decl.nodes("note")
    if not notes and lacks_note(decl):
        yield decl.start
    for number, note in enumerate(notes):
        if number > 0 or not note_fits(note, decl):
            yield note.start


def is_assignable(left):
    """Whether the left side of an assignment is of names, `this`, parentheses, selections and applications to one argument."""
    if left.label in ("Name", "This"):
        return True
    if left.label == "Apply" and len(left.node("arguments").nodes()) != 1:
        return False
    return left.label in ("Paren", "Select", "Apply") and is_assignable(left.nodes()[0])


def is_lone_case(around):
    """Whether a statement is the only one of a case of a match expression. The nodes around it are given."""
    return around[-1].label == "case" and around[-3].label == "MatchExpression" and len(around[-1].statements()) == 1


def broken(tree):
    """The rule and its byte, or None."""
    found = []
    for node, around in tree.walk():
        if node.label in DECLARATIONS:
            found += [(place, "G3") for place in note_faults(node)]
        elif node.label == "Assign" and not is_assignable(node.parts[0]):
            found.append((node.start, "G4"))
        elif node.label == "Call" and node.parts[0].label != "Apply" and not is_lone_case(around):
            found.append((node.start, "G5"))
    if not found:
        return None
    place, rule = min(found)
    return rule, place
