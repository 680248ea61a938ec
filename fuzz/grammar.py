"""The grammar of files as data, and a recogniser of lists of tokens by Earley's algorithm: the longest front of the tokens with which a file
begins, the rule that is broken there, and the phrases of a whole file. It is written from the grammar in docs/language.md, apart from
slangc's parser, and knows no order of reading."""
import heapq

DEEPEST = 64  # nodes within nodes

# Each form has its alternatives: a label, or None for a form that leaves no trace in the tree; `+` before the label of a node that counts
# for nesting; and the symbols. A symbol is another form or a sort of tokens in quotation marks, and may be left out where `?` stands behind
# it. `statement X` stands for X at the beginning of a statement, where what is skipped begins no expression.
GRAMMAR = """
file            = file: package? library items?
package         = package: 'package' path 'Separator'
library         = library: 'import' 'org' '.' 'sireum' '.' '_'
items           = None: 'Separator' item | None: items 'Separator' item
item            = None: import | None: decl
import          = Import: 'import' path all?
all             = all: '.' '_'
path            = path: names
names           = None: 'id' | None: names '.' 'id'
notes           = None: note | None: notes note
note            = note: '@' 'id' pairs?
pairs           = pairs: '(' fields ')'
fields          = None: field | None: fields ',' field
field           = field: 'id' '=' expr
decl            = Enum: notes? 'object' 'id' '{' enumerated '}' | Ints: notes? 'class' 'id' | Class: notes? 'class' 'id' tparams? params ext? methods?
                | Trait: notes? 'trait' 'id' tparams? ext? methods? | Object: notes? 'object' 'id' ext? body?
enumerated      = None: name | None: enumerated 'Separator' name
name            = None: 'Quoted' | None: 'Symbol'
tparams         = tparams: '[' ids ']'
ids             = None: 'id' | None: ids ',' 'id'
params          = params: '(' ')' | params: '(' parameters ')'
parameters      = None: param | None: parameters ',' param
param           = param: 'id' ':' type | param: 'val' 'id' ':' type | param: 'var' 'id' ':' type
ext             = ext: 'extends' parents
parents         = None: type | None: parents 'with' type
methods         = members: '{' '}' | members: '{' inners '}'
inners          = None: method | None: inners 'Separator' method
body            = members: '{' '}' | members: '{' outers '}'
outers          = None: outer | None: outers 'Separator' outer
outer           = None: method | None: global
method          = Method: notes? 'override'? 'def' 'id' tparams? params? ':' type meaning?
meaning         = meaning: '=' block | meaning: '=' expr
global          = Global: notes? 'override'? variable
variable        = None: 'val' 'id' written? '=' expr | None: 'var' 'id' written? '=' expr
written         = written: ':' type
type            = +Type: path | +Type: path '[' types ']'
types           = None: type | None: types ',' type
block           = block: '{' '}' | block: '{' stmts '}'
stmts           = None: stmt | None: stmts 'Separator' stmt
stmt            = +Let: variable | +Assign: statement expr '=' expr | +Call: statement infix | +Call: conditional
                | +MatchStatement: statement infix 'match' cases | None: if | +While: 'while' '(' expr ')' block
                | +For: 'for' '(' 'id' '<-' expr 'until' expr ')' block | +For: 'for' '(' 'id' '<-' expr 'to' expr ')' block
                | +Return: 'return' expr? | +Skip: 'skipped id' '(' balanced? ')' | +Skip: 'skipped Prefixed'
if              = +IfStatement: 'if' '(' expr ')' block | +IfStatement: 'if' '(' expr ')' block 'else' block
                | +IfStatement: 'if' '(' expr ')' block 'else' if
balanced        = None: skipped | None: balanced skipped
skipped         = None: 'no bracket' | None: '(' balanced? ')' | None: '[' balanced? ']' | None: '{' balanced? '}'
cases           = cases: '{' several '}'
several         = None: case | None: several case
case            = case: 'case' pattern guard? '=>' stmts?
guard           = guard: 'if' expr
exprs           = None: expr | None: exprs ',' expr
conditional     = +IfExpression: 'if' '(' expr ')' expr 'else' expr
arguments       = arguments: '(' ')' | arguments: '(' exprs ')'
pattern         = +AnyPattern: '_' written? | +BindPattern: 'other id' | +BindPattern: 'id' written | +LiteralPattern: 'T' | +LiteralPattern: 'F'
                | +LiteralPattern: 'Number' | +LiteralPattern: 'prefix -' 'Number' | +LiteralPattern: 'Quoted' | +LiteralPattern: 'Letter' | +LiteralPattern: 'Prefixed'
                | +ConstantPattern: names '.' 'id' | +ClassPattern: path '(' ')' | +ClassPattern: path '(' patterns ')'
patterns        = None: pattern | None: patterns ',' pattern
"""
# The forms of expressions, each at the beginning of a statement too
EXPRESSIONS = """
expr            = None: conditional | None: infix | +MatchExpression: infix 'match' cases
infix           = None: infix 1
infix 1         = None: infix 2 | +Infix: infix 1 'level 1' right 2
infix 2         = None: infix 3 | +Infix: infix 2 'level 2' right 3
infix 3         = None: infix 4 | +Infix: infix 3 'level 3' right 4
infix 4         = None: infix 5 | +Infix: infix 4 'level 4' right 5
infix 5         = None: infix 6 | +Infix: infix 5 'level 5' right 6
infix 6         = None: infix 7 | +Infix: infix 6 'level 6' right 7
infix 7         = None: prefix | +Infix: infix 7 'level 7' operand
prefix          = None: postfix | +Literal: 'prefix -' 'Number' | +Prefix: 'prefix -' any other | +Prefix: 'prefix' any postfix
postfix         = +Literal: 'Number' | None: other
other           = +Literal: 'Quoted' | +Literal: 'Letter' | +Literal: 'OWN Prefixed' | +Name: 'OWN id' | +This: 'this' | +Paren: '(' inner ')'
                | +Select: postfix '.' 'id' | +Given: postfix '[' types ']' | +Apply: postfix arguments | +Update: postfix pairs
"""
# What is the same wherever the expression begins
INSIDE = {"right 2": "infix 2", "right 3": "infix 3", "right 4": "infix 4", "right 5": "infix 5", "right 6": "infix 6", "right 7": "infix 7",
          "operand": "prefix", "any other": "other", "any postfix": "postfix", "inner": "expr", "conditional": "conditional", "cases": "cases",
          "types": "types", "arguments": "arguments", "pairs": "pairs"}
LEVELS = [["|", "||", "|^"], ["&", "&&"], ["==", "!="], ["<", "<=", ">", ">=", "<<", ">>", ">>>"], [":+"], ["+", "-"], ["*", "/", "%"]]
LEVEL_OF = {operator: number for number, operators in enumerate(LEVELS, 1) for operator in operators}


class Rule:
    """An alternative of a form."""

    def __init__(self, form, label, counts, symbols):
        self.form, self.label, self.counts, self.symbols = form, label, counts, symbols


def symbols_of(text, forms):
    """The symbols of an alternative: the longest names of forms that fit, and sorts in quotation marks."""
    made = []
    while text:
        if text[0] == "'":
            end = text.index("'", 1) + 1
        else:
            end = max(len(form) for form in forms if text.startswith(form) and text[len(form):len(form) + 1] in ("", " ", "?"))
        optional = text[end:end + 1] == "?"
        made.append((text[:end], optional))
        text = text[end + optional:].lstrip()
    return made


def parted(text):
    """The forms and the texts of their alternatives."""
    for form in text.replace("\n                |", " |").strip().split("\n"):
        name, alternatives = form.split("= ", 1)
        for alternative in alternatives.split(" | "):
            label, symbols = alternative.split(": ", 1)
            yield name.strip(), label, symbols.strip()


def expanded(symbols):
    """The lists of symbols with and without each of those that may be left out."""
    if not symbols:
        return [[]]
    (symbol, optional), rest = symbols[0], expanded(symbols[1:])
    return [[symbol, *more] for more in rest] + (rest if optional else [])


def rules():
    """All alternatives, without optional symbols."""
    lines = list(parted(GRAMMAR))
    plain = [name for name, _, _ in parted(EXPRESSIONS)]
    own = {name: f"statement {name}" for name in plain}
    forms = {name for name, _, _ in lines} | set(plain) | set(own.values()) | set(INSIDE)
    made = []

    def add(form, label, symbols, renamed):
        for chosen in expanded(symbols_of(symbols, forms)):
            kept = [renamed.get(symbol, symbol) for symbol in chosen]
            made.append(Rule(form, None if label == "None" else label.lstrip("+"), label.startswith("+"), kept))

    for form, label, symbols in lines:
        add(form, label, symbols, {})
    for form, label, symbols in parted(EXPRESSIONS):
        add(form, label, symbols, {**INSIDE, "'OWN id'": "'id'", "'OWN Prefixed'": "'Prefixed'"})
        add(own[form], label, symbols, {**INSIDE, **own, "'OWN id'": "'beginning id'", "'OWN Prefixed'": "'beginning Prefixed'"})
    return made


def sorts_of(tokens):
    """The sorts of each token, in quotation marks as the grammar has them."""
    made = []
    for at, token in enumerate(tokens):
        kind, text = token.kind, token.text
        sorts = set()
        if kind in ("Word", "Mark"):
            sorts.add(text)
        elif kind == "Operator":
            if text in LEVEL_OF:
                sorts.add(f"level {LEVEL_OF[text]}")
            if text == "-":
                sorts.add("prefix -")
            elif text in ("!", "~"):
                sorts.add("prefix")
        elif kind == "Ident":
            sorts.add("id")
            skips = text in ("Contract", "Invariant")
            if skips:
                sorts.add("skipped id")
            if not (skips and at + 1 < len(tokens) and tokens[at + 1].kind == "Mark" and tokens[at + 1].text == "("):
                sorts.add("beginning id")
            if text in ("T", "F", "org", "sireum", "until", "to"):
                sorts.add(text)
            if text not in ("T", "F"):
                sorts.add("other id")
        elif kind == "Prefixed":
            sorts |= {kind, "skipped Prefixed" if text.startswith('l"') else "beginning Prefixed"}
        else:
            sorts.add(kind)
        if not (kind == "Mark" and text in "()[]{}"):
            sorts.add("no bracket")
        made.append(frozenset(f"'{sort}'" for sort in sorts))
    return made


class Grammar:
    """The grammar in the form that the recogniser uses. A dotted rule is a number: that of its alternative's beginning, and as many more as
    symbols were passed."""

    def __init__(self):
        self.rules = rules()
        self.dotted = []  # the alternative and the next symbol of each dotted rule
        self.begins = {}  # the first dotted rules of each form
        for rule in self.rules:
            self.begins.setdefault(rule.form, []).append(len(self.dotted))
            for symbol in [*rule.symbols, None]:
                self.dotted.append((rule, symbol))
        for rule in self.rules:
            for symbol in rule.symbols:
                assert symbol[0] == "'" or symbol in self.begins, symbol
        self.firsts = self.first_sorts()
        self.least = self.least_heights()
        self.least_behind = [0] * len(self.dotted)  # the least height of what stands behind the dot
        for at in range(len(self.dotted) - 1, -1, -1):
            symbol = self.dotted[at][1]
            if symbol is not None:
                self.least_behind[at] = max(self.least_behind[at + 1], self.least.get(symbol, 0))
        self.predicted = {}

    def first_sorts(self):
        """The sorts with which each form begins."""
        firsts = {form: set() for form in self.begins}
        changed = True
        while changed:
            changed = False
            for rule in self.rules:
                first = rule.symbols[0]
                more = {first} if first[0] == "'" else firsts[first]
                if not more <= firsts[rule.form]:
                    firsts[rule.form] |= more
                    changed = True
        return firsts

    def least_heights(self):
        """How many nodes stand in one another at least, in each form."""
        least = {form: None for form in self.begins}
        changed = True
        while changed:
            changed = False
            for rule in self.rules:
                parts = [0 if symbol[0] == "'" else least[symbol] for symbol in rule.symbols]
                if None not in parts:
                    height = max(parts) + rule.counts
                    if least[rule.form] is None or height < least[rule.form]:
                        least[rule.form] = height
                        changed = True
        return least

    def beginnings(self, form, sorts):
        """The alternatives of a form that begin with a token of these sorts."""
        found = self.predicted.get((form, sorts))
        if found is None:
            found = []
            for at in self.begins[form]:
                first = self.dotted[at][1]
                if first in sorts if first[0] == "'" else self.firsts[first] & sorts:
                    found.append(at)
            self.predicted[form, sorts] = found
        return found


THE_GRAMMAR = Grammar()


class Chart:
    """What can be read of a list of tokens. A column has the items behind so many tokens: a dotted rule and the column where it began, with
    the height of what was passed, the item before, and the item of the part that was passed last."""

    def __init__(self, tokens, form="file"):
        self.tokens, self.form = tokens, form
        self.sorts = sorts_of(tokens)
        self.columns = []
        self.waiting = []
        self.front = 0
        column = {}
        for sorts in [*self.sorts, frozenset()]:
            self.columns.append(column)
            self.waiting.append({})
            column = self.read(column, sorts)
            if not column:
                break
        self.front = len(self.columns) - 1  # how many tokens some file begins with

    def read(self, column, sorts):
        """Completes a column, and gives what the next one begins with."""
        at = len(self.columns) - 1
        waiting, following, dotted = self.waiting[at], {}, THE_GRAMMAR.dotted
        # what is on its way: the items that were scanned, or those of the first form
        pending = list(column) if at else [(begin, 0) for begin in THE_GRAMMAR.beginnings(self.form, sorts)]
        if not at:
            column.update({item: (0, None, None) for item in pending})
            waiting[self.form] = []
        while pending:
            item = pending.pop()
            rule, symbol = dotted[item[0]]
            if symbol is None:
                height = column[item][0] + rule.counts
                for before in self.waiting[item[1]].get(rule.form, ()):
                    moved = (before[0] + 1, before[1])
                    assert moved not in column, (rule.form, dotted[before[0]][0].form)
                    column[moved] = (max(self.columns[item[1]][before][0], height), (item[1], before), item)
                    pending.append(moved)
            elif symbol[0] == "'":
                if symbol in sorts:
                    following[item[0] + 1, item[1]] = (column[item][0], (at, item), None)
            else:
                others = waiting.get(symbol)
                if others is not None:
                    others.append(item)
                    continue
                waiting[symbol] = [item]
                for begin in THE_GRAMMAR.beginnings(symbol, sorts):
                    if (begin, at) not in column:
                        column[begin, at] = (0, None, None)
                        pending.append((begin, at))
        return following

    def whole(self):
        """The item of a whole phrase, where the tokens are one."""
        if self.front < len(self.tokens):
            return None
        for item in self.columns[self.front]:
            rule, symbol = THE_GRAMMAR.dotted[item[0]]
            if symbol is None and item[1] == 0 and rule.form == self.form:
                return item
        return None

    def height(self, count):
        """How many nodes stand in one another at least, in every phrase that begins with so many tokens."""
        best, heap, dotted = {}, [], THE_GRAMMAR.dotted
        if count == 0:
            return THE_GRAMMAR.least[self.form]
        for item, (height, before, _) in self.columns[count].items():
            if before is not None:
                self.offer(heap, item, height)
        while heap:
            height, form, began = heapq.heappop(heap)
            if (form, began) in best:
                continue
            best[form, began] = height
            if form == self.form and began == 0:
                return height
            for before in self.waiting[began].get(form, ()):
                self.offer(heap, (before[0] + 1, before[1]), max(self.columns[began][before][0], height))
        raise AssertionError(dotted)

    @staticmethod
    def offer(heap, item, height):
        rule = THE_GRAMMAR.dotted[item[0]][0]
        heapq.heappush(heap, (max(height, THE_GRAMMAR.least_behind[item[0]]) + rule.counts, rule.form, item[1]))

    def refused(self, around=0):
        """The rule G1 or G6 and the number of the token that breaks it, or None. The phrase stands in so many nodes."""
        most = DEEPEST - around
        if self.height(self.front) > most:
            low, high = 0, self.front
            while high - low > 1:
                middle = (low + high) // 2
                low, high = (low, middle) if self.height(middle) > most else (middle, high)
            return "G6", max(high - 1, 0)
        whole = self.whole()
        if whole is None:
            return "G1", self.front
        if self.columns[self.front][whole][0] + THE_GRAMMAR.dotted[whole[0]][0].counts > most:
            return "G6", self.front
        return None


def differs_from_library(tokens, at):
    """Whether the token of this number stands where the library's import goes on with another one."""
    start = 0
    if tokens and tokens[0].text == "package":
        start = next((number + 1 for number, token in enumerate(tokens) if token.kind == "Separator"), len(tokens))
    return start <= at < min(start + 6, len(tokens))


def refusal(chart, data):
    """The rule G1, G2 or G6 that the tokens of a file break and the byte where it stands, or None."""
    broken = chart.refused()
    if broken is None:
        return None
    rule, at = broken
    if rule == "G1" and differs_from_library(chart.tokens, at):
        rule = "G2"
    return rule, chart.tokens[at].start if at < len(chart.tokens) else len(data)
