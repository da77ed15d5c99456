"""The readable source of a dossier, and the bytes that it stands for.

README.md says how a source is written. Each line of a source becomes one record, in the order of the lines; only the
moves of an observer are gathered into one record. Nothing is checked beyond the writing itself (a number must fit its
byte, a variable must be declared), so that a source can also describe a dossier that must be refused.
"""

import re

HEAD, OPENING, RULE, ROW, MOVES, OBSERVER_ROW, ENTRY, END = range(1, 9)
ATOMS, COUNTS = 1, 2

LITERAL = re.compile(r"(!?)(\w+)\(\s*([\w*]+)\s*(?:,\s*([\w*]+)\s*)?\)")


class SourceError(Exception):
    """A line of a source that cannot be read."""


def record(kind, body):
    """The bytes of one record: length, kind, body."""
    return len(body).to_bytes(2, "little") + kind.to_bytes(2, "little") + body


def numbers(text, size=1):
    """The bytes of the numbers in a text, each `size` bytes long."""
    return b"".join(int(word).to_bytes(size, "little") for word in text.split())


class Names:
    """The relations of a source: a0 to a7, b0 to b7, and the names given to them by `relation` lines."""

    def __init__(self):
        """Only the plain names."""
        self.meant = {f"{sort}{index}": (sort, index) for sort in "ab" for index in range(8)}
        self.shown = {relation: name for name, relation in self.meant.items()}

    def declare(self, plain, name):
        """Let `name` mean what `plain` means, and be shown for it."""
        self.meant[name] = self.meant[plain]
        self.shown[self.meant[plain]] = name

    def literal(self, match, index_of):
        """The four bytes of a matched literal, given the number of each variable or object."""
        denied, name, first, second = match.groups()
        if name not in self.meant:
            raise SourceError(f"{name} is not a relation")
        sort, relation = self.meant[name]
        if (sort == "a") != (second is None):
            raise SourceError(f"{match[0]} has the wrong number of places")
        if sort == "a":
            kind, places = 0, (first,)
        elif second == "*":
            kind, places = 4, (first,)
        elif first == "*":
            kind, places = 6, (second,)
        else:
            kind, places = 2, (first, second)
        variables = [index_of(place) for place in places] + [0]
        return bytes([kind + (denied == "!"), relation, *variables[:2]])

    def literals(self, text, index_of):
        """The literals of a text, four bytes each."""
        if LITERAL.sub("", text).strip():
            raise SourceError(f"not a list of literals: {text.strip()}")
        return [self.literal(match, index_of) for match in LITERAL.finditer(text)]

    def show(self, literal, variable="v"):
        """A literal of four bytes as it is written in a source."""
        kind, relation, first, second = literal
        sort = "a" if kind < 2 else "b"
        x, y = f"{variable}{first}", f"{variable}{second}"
        places = {0: x, 2: f"{x},{y}", 4: f"{x},*", 6: f"*,{x}"}[kind & ~1]
        return f"{'!' * (kind & 1)}{self.shown[sort, relation]}({places})"


class Source:
    """A source being read: the records so far, and what later lines need to know."""

    def __init__(self):
        """Nothing read yet."""
        self.pattern_kind = None
        self.places = 0
        self.observers = 0
        self.names = Names()
        self.records = []
        self.moves = None

    def read(self, text):
        """Read all lines of a text."""
        for number, line in enumerate(text.splitlines(), 1):
            line = line.split("#")[0].strip()
            try:
                if line:
                    self.line(line)
            except (SourceError, KeyError, ValueError, OverflowError) as error:
                raise SourceError(f"line {number}: {error}") from error
        return self

    def line(self, line):
        """Read one line that is not blank."""
        word = re.match(r"\w+", line)
        readers = {
            "atoms": self.atoms, "counts": self.counts, "relation": self.relation, "opening": self.opening,
            "rule": self.rule, "row": self.row, "observer": self.observer, "moves": self.moves_of_a_rule,
            "pair": self.pair, "entry": self.entry,
        }
        if word is None or word[0] not in readers:
            raise SourceError(f"not a line of a source: {line}")
        if self.pattern_kind is None and word[0] not in ("atoms", "counts"):
            raise SourceError("the first line must be `atoms` or `counts`")
        readers[word[0]](line[word.end():])

    def add(self, kind, body):
        """Add a record, after the moves that were being gathered."""
        self.close_moves()
        self.records.append(record(kind, body))

    def close_moves(self):
        """End the moves table being gathered, if any."""
        if self.moves is not None:
            self.records.append(record(MOVES, self.moves))
        self.moves = None

    def atoms(self, _):
        """`atoms`"""
        self.pattern_kind = ATOMS

    def counts(self, rest):
        """`counts PLACES`"""
        self.pattern_kind, self.places = COUNTS, int(rest)

    def relation(self, rest):
        """`relation a0 NAME`"""
        plain, name = rest.split()
        self.names.declare(plain, name)

    def opening(self, rest):
        """`opening: ATOMS` or `opening: COUNTS`"""
        text = after_colon(rest)
        if self.pattern_kind == ATOMS:
            self.add(OPENING, b"".join(self.names.literals(text, int)))
        else:
            self.add(OPENING, numbers(text, 2))

    def rule(self, rest):
        """`rule NAME VARIABLES: CONDITION -> EFFECT` or `rule NAME: TAKES -> GIVES`"""
        declared, sides = before_colon(rest).split()[1:], after_colon(rest).split("->")
        if len(sides) != 2:
            raise SourceError("a rule has one ->")
        if self.pattern_kind == ATOMS:
            condition, effect = (self.names.literals(side, number_in(declared)) for side in sides)
            counts = bytes([len(declared), len(condition), len(effect)])
            self.add(RULE, counts + b"".join(condition + effect))
        else:
            self.add(RULE, numbers(sides[0]) + numbers(sides[1]))

    def row(self, rest):
        """`row VARIABLES: LITERALS` or `row: NUMBERS`"""
        declared, text = before_colon(rest).split(), after_colon(rest)
        if self.pattern_kind == ATOMS:
            literals = self.names.literals(text, number_in(declared))
            self.add(ROW, bytes([len(declared), len(literals)]) + b"".join(literals))
        else:
            self.add(ROW, numbers(text, 2))

    def observer(self, _):
        """`observer`"""
        self.close_moves()
        self.observers += 1
        self.moves = b""

    def moves_of_a_rule(self, rest):
        """`moves MODE MODE MODE MODE`, one line for each rule"""
        if self.moves is None:
            raise SourceError("moves come directly after `observer`")
        self.moves += numbers(rest)

    def pair(self, rest):
        """`pair ROW MODE`"""
        self.add(OBSERVER_ROW, numbers(rest))

    def entry(self, rest):
        """`entry ROW by NUMBERS`, with commas between the numbers"""
        row, matching = rest.split("by")
        self.add(ENTRY, numbers(row) + numbers(matching.replace(",", " ")))

    def dossier(self):
        """The whole dossier."""
        self.close_moves()
        if self.pattern_kind is None:
            raise SourceError("the source is empty")
        head = record(HEAD, bytes([self.pattern_kind, self.observers, self.places]))
        return head + b"".join(self.records) + record(END, b"")


def number_in(declared):
    """A function from the name of a declared variable to its number."""
    def number(name):
        """The number of one variable."""
        if name not in declared:
            raise SourceError(f"{name} is not a variable of this line")
        return declared.index(name)
    return number


def before_colon(text):
    """What stands before the first colon."""
    if ":" not in text:
        raise SourceError("a colon is missing")
    return text.split(":", 1)[0]


def after_colon(text):
    """What stands after the first colon."""
    if ":" not in text:
        raise SourceError("a colon is missing")
    return text.split(":", 1)[1]


def encode(text):
    """The dossier that a source stands for."""
    return Source().read(text).dossier()
