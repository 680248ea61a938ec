"""The tree of a whole phrase, from what the recogniser read. A node has the label of its alternative in the grammar, and its parts in order:
nodes, and the tokens between them."""
from grammar import THE_GRAMMAR
from tokens import Token

STATEMENTS = {"Let", "Assign", "Call", "IfStatement", "While", "For", "MatchStatement", "Return", "Skip"}
DECLARATIONS = {"Enum", "Ints", "Class", "Trait", "Object", "Method", "Global"}


class Node:
    """A phrase: its label, whether it counts for nesting, its parts, and the bytes where it starts and ends."""

    def __init__(self, label, counts, parts):
        self.label, self.counts, self.parts = label, counts, parts
        self.start, self.end = parts[0].start, parts[-1].end

    def nodes(self, *labels):
        """The parts that are nodes, of these labels where any are given."""
        return [part for part in self.parts if isinstance(part, Node) and (not labels or part.label in labels)]

    def node(self, *labels):
        """The first of these, or None."""
        return next(iter(self.nodes(*labels)), None)

    def spelled(self):
        """The spellings of the parts that are tokens."""
        return [part.text for part in self.parts if isinstance(part, Token)]

    def has(self, text):
        return text in self.spelled()

    def names(self):
        """The identifiers among the parts."""
        return [part.text for part in self.parts if isinstance(part, Token) and part.kind == "Ident"]

    def statements(self):
        return self.nodes(*STATEMENTS)

    def height(self):
        """How many nodes stand in one another."""
        return max((part.height() for part in self.nodes()), default=0) + self.counts

    def walk(self):
        """The node and all nodes in it, each with the nodes around it, the nearest last."""
        pending = [(self, ())]
        while pending:
            node, around = pending.pop()
            yield node, around
            pending += [(part, (*around, node)) for part in reversed(node.nodes())]

    def shape(self):
        """The tree as nested tuples of labels and spellings, without places."""
        return (self.label, *(part.shape() if isinstance(part, Node) else part.text for part in self.parts))


def parts_of(chart, column, item):
    """The parts of an item that was read up to a column, from the first one on."""
    steps = []
    while True:
        _, before, passed = chart.columns[column][item]
        if before is None:
            break
        if passed is None:
            steps.append([chart.tokens[before[0]]])
        else:
            steps.append(built(chart, column, passed))
        column, item = before
    return [part for step in reversed(steps) for part in step]


def built(chart, column, item):
    """The node of a whole item, or its parts where its form leaves no trace."""
    rule = THE_GRAMMAR.dotted[item[0]][0]
    parts = parts_of(chart, column, item)
    return [Node(rule.label, rule.counts, parts)] if rule.label else parts


def tree_of(chart):
    """The tree of a chart's tokens, which are a whole phrase."""
    return built(chart, chart.front, chart.whole())[0]
