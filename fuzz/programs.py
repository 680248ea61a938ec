"""Random plain programs, and the interpreter that says what each of them is to do."""

LEAST, GREATEST = -(2**63), 2**63 - 1
COMPARISONS = {
    "==": lambda a, b: a == b, "!=": lambda a, b: a != b, "<": lambda a, b: a < b,
    "<=": lambda a, b: a <= b, ">": lambda a, b: a > b, ">=": lambda a, b: a >= b,
}
HEAD = ["// #Sireum", "import org.sireum._", "object X extends App {", "  def main(args: ISZ[String]): Z = {"]
DEEPEST = 4  # blocks within blocks, in the programs made here


class Halted(Exception):
    """A run that halted: its kind and its line."""


class TurnsSpent(Exception):
    """A run that needs more turns than it may take."""


class Maker:
    """Makes random bodies. A statement is a list: its form, and its parts. `scope` has the type of each name, and if it is a var."""

    def __init__(self, source):
        self.source = source
        self.names = 0

    def fresh(self):
        self.names += 1
        return f"v{self.names}"

    def atom(self, scope, kind):
        known = [name for name, (held, _) in scope.items() if held == kind]
        if known and self.source.random() < 0.6:
            return self.source.choice(known)
        if kind == "B":
            return self.source.choice(["T", "F"])
        edge = [0, 1, 2, 3, -1, -2, 5, 7, GREATEST, LEAST, GREATEST - 1, self.source.randint(-10, 10)]
        return str(self.source.choice(edge))

    def condition(self, scope):
        if self.source.random() < 0.3:
            return [self.atom(scope, "B")]
        return [self.atom(scope, "Z"), self.source.choice(list(COMPARISONS)), self.atom(scope, "Z")]

    def right(self, scope, kind):
        if kind == "B":
            return self.condition(scope)
        chance = self.source.random()
        if chance < 0.25:
            return [self.atom(scope, "Z")]
        if chance < 0.4:
            return ["Port.get()"]
        return [self.atom(scope, "Z"), self.source.choice("+-*/%"), self.atom(scope, "Z")]

    def bound(self, scope):
        return str(self.source.randint(-3, 4)) if self.source.random() < 0.8 else self.atom(scope, "Z")

    def block(self, outer, depth, most):
        """A block of at most so many statements."""
        scope = dict(outer)
        made = []
        for _ in range(self.source.randint(0, most)):
            chance = self.source.random()
            changed = [name for name, (_, is_var) in scope.items() if is_var]
            if chance < 0.27:
                kind, is_var, name = self.source.choice("ZZB"), self.source.random() < 0.7, self.fresh()
                made.append(["declare", is_var, name, kind, self.right(scope, kind)])
                scope[name] = (kind, is_var)
            elif chance < 0.45 and changed:
                name = self.source.choice(changed)
                made.append(["assign", name, self.right(scope, scope[name][0])])
            elif chance < 0.6:
                made.append(["print", self.atom(scope, self.source.choice("ZZB"))])
            elif chance < 0.65:
                made.append(["text", f"t{self.source.randint(0, 9)}"])
            elif chance < 0.67:
                made.append(["assert", self.condition(scope)])
            elif chance < 0.675:
                made.append(["halt"])
            elif depth < DEEPEST:
                made.append(self.nested(scope, depth + 1))
        return made

    def nested(self, scope, depth):
        chance = self.source.random()
        if chance < 0.35:
            test, then = self.condition(scope), self.block(scope, depth, 3)
            return ["if", test, then, self.block(scope, depth, 3) if self.source.random() < 0.5 else None]
        if chance < 0.5:
            return ["while", self.condition(scope), self.block(scope, depth, 3)]
        if chance < 0.55:
            return ["spin", self.condition(scope)]
        name, start, end = self.fresh(), self.bound(scope), self.bound(scope)
        return ["for", name, start, end, self.block({**scope, name: ("Z", False)}, depth, 3)]

    def body(self):
        """The statements of a program, and the atom that it returns."""
        made = self.block({}, 0, 10)
        known = [s[2] for s in made if s[0] == "declare" and s[3] == "Z"]
        return made, self.source.choice(known) if known else str(self.source.randint(-5, 70))


# The line of a statement, or the one that begins its block, from its parts
SPELLED = {
    "declare": lambda is_var, name, kind, right: f"{'var' if is_var else 'val'} {name}: {kind} = {' '.join(right)}",
    "assign": lambda name, right: f"{name} = {' '.join(right)}",
    "print": lambda atom: f"println({atom})",
    "text": lambda text: f'println("{text}")',
    "assert": lambda test: f"assert({' '.join(test)})",
    "halt": lambda: 'halt("x")',
    "spin": lambda test: f"while ({' '.join(test)}) {{}}",
    "if": lambda test, *blocks: f"if ({' '.join(test)}) {{",
    "while": lambda test, *blocks: f"while ({' '.join(test)}) {{",
    "for": lambda name, start, end, *blocks: f"for ({name} <- {start} until {end}) {{",
}


def lay_out(statements, indentation, lines):
    """Puts the lines of the statements behind `lines`, and the number of its line in front of each statement's parts."""
    blanks = " " * indentation
    for statement in statements:
        form, parts = statement[0], statement[1:]
        statement.insert(0, len(lines) + 1)
        lines.append(blanks + SPELLED[form](*parts))
        if form not in ("if", "while", "for"):
            continue
        lay_out(parts[3] if form == "for" else parts[1], indentation + 2, lines)
        if form == "if" and parts[2] is not None:
            lines.append(blanks + "} else {")
            lay_out(parts[2], indentation + 2, lines)
        lines.append(blanks + "}")


class Run:
    """A run of a body that was laid out, on an input, in so many turns."""

    def __init__(self, data, turns):
        self.rest = list(data)
        self.turns = turns
        self.held = {}
        self.printed = []

    def turn(self):
        if self.turns == 0:
            raise TurnsSpent()
        self.turns -= 1

    def atom(self, text):
        if text in ("T", "F"):
            return text == "T"
        return self.held[text] if text[0].isalpha() else int(text)

    def value(self, parts, line):
        if parts == ["Port.get()"]:
            return self.rest.pop(0) if self.rest else -1
        if len(parts) == 1:
            return self.atom(parts[0])
        left, sign, right = self.atom(parts[0]), parts[1], self.atom(parts[2])
        if sign in COMPARISONS:
            return COMPARISONS[sign](left, right)
        if sign in "/%":
            if right == 0:
                raise Halted("Zero", line)
            quotient = abs(left) // abs(right) * (1 if (left < 0) == (right < 0) else -1)
            result = quotient if sign == "/" else left - quotient * right
        else:
            result = {"+": left + right, "-": left - right, "*": left * right}[sign]
        if not LEAST <= result <= GREATEST:
            raise Halted("Range", line)
        return result

    def put(self, value):
        self.printed.append(("T" if value else "F") if isinstance(value, bool) else str(value))

    def block(self, statements):
        for line, form, *parts in statements:
            if form == "declare":
                self.held[parts[1]] = self.value(parts[3], line)
            elif form == "assign":
                self.held[parts[0]] = self.value(parts[1], line)
            elif form == "print":
                self.put(self.atom(parts[0]))
            elif form == "text":
                self.printed.append(parts[0])
            elif form == "assert":
                if not self.value(parts[0], line):
                    raise Halted("Assert", line)
            elif form == "halt":
                raise Halted("Halt", line)
            elif form == "if":
                if self.value(parts[0], line):
                    self.block(parts[1])
                elif parts[2] is not None:
                    self.block(parts[2])
            elif form == "for":
                at, end = self.atom(parts[1]), self.atom(parts[2])
                self.turn()
                while at < end:
                    self.held[parts[0]] = at
                    self.block(parts[3])
                    at += 1
                    self.turn()
            else:
                self.turn()
                while self.value(parts[0], line):
                    self.block(parts[1] if form == "while" else [])
                    self.turn()


def expected(statements, returned, data, turns, file):
    """The standard output, the status and the standard error that a run is to give."""
    run = Run(data, turns)
    try:
        run.turn()
        run.block(statements)
        value = run.atom(returned)
        status, note = (value, "") if 0 <= value <= 63 else (69, f"exit value {value}\n")
    except Halted as halted:
        status, note = 66, f"halt {halted.args[0]} {file}:{halted.args[1]}\n"
    except TurnsSpent:
        status, note = 67, "turns spent\n"
    return "".join(line + "\n" for line in run.printed).encode(), status, note.encode()
