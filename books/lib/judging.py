"""What a dossier's bytes hold, and what the judge says of them: a plain reference for tests.

Everything here is written down as it is defined, and nothing is done to make it fast. The parts: patterns over atoms,
the pattern kinds (atoms, counts, observers over either), the file, the judge. It shares no code with the program that
it is compared with.
"""

from itertools import permutations
from typing import NamedTuple

# ------------------------------------------------------------------------------------------------ patterns over atoms

A, NOT_A, B, NOT_B, FROM, NOT_FROM, INTO, NOT_INTO = range(8)
TWO_PLACE = (B, NOT_B)


class Literal(NamedTuple):
    """A literal over variables; over objects it is ground. The second place is 0 where the kind has one place."""
    kind: int
    relation: int
    first: int
    second: int


class Rule(NamedTuple):
    """A rule over atoms."""
    variables: int
    condition: list
    effect: list


class Pattern(NamedTuple):
    """Some different objects, one for each variable, make all these literals true."""
    variables: int
    literals: list


def rename(literal, names):
    """The literal with each variable replaced by its name."""
    second = names[literal.second] if literal.kind in TWO_PLACE else 0
    return Literal(literal.kind, literal.relation, names[literal.first], second)


def rename_all(literals, names):
    """The literals with each variable replaced by its name."""
    return [rename(literal, names) for literal in literals]


def denial(literal):
    """The literal that says the opposite."""
    return literal._replace(kind=literal.kind ^ 1)


def has(literals, kind, relation, first=None, second=None):
    """Whether some literal has this kind and relation, and these places where they are given."""
    return any(
        literal.kind == kind and literal.relation == relation
        and first in (None, literal.first) and second in (None, literal.second)
        for literal in literals)


def contradictory(literals):
    """A literal beside its denial, or b(x,y) beside not-from-b(x) or not-into-b(y)."""
    for literal in literals:
        if denial(literal) in literals:
            return True
        if literal.kind == B and shut(literals, literal):
            return True
    return False


def shut(literals, pair):
    """Whether not-from-b(x) or not-into-b(y) is among the literals, for the x and y of a two-place literal."""
    return has(literals, NOT_FROM, pair.relation, pair.first) or has(literals, NOT_INTO, pair.relation, pair.second)


def made_true(effect, literal):
    """Whether the effect makes the literal true."""
    kind, relation, first, _ = literal
    if kind == FROM:
        return has(effect, B, relation, first=first)
    if kind == INTO:
        return has(effect, B, relation, second=first)
    return literal in effect or (kind == NOT_B and shut(effect, literal))


def made_false(effect, literal):
    """Whether the effect makes the literal false."""
    kind, relation, first, _ = literal
    if kind == NOT_FROM:
        return has(effect, B, relation, first=first)
    if kind == NOT_INTO:
        return has(effect, B, relation, second=first)
    return denial(literal) in effect or (kind == B and shut(effect, literal))


def loosened(effect, literal):
    """Whether the effect ends a pair, so that a not-from or not-into literal need not have held before."""
    kind, relation, first, _ = literal
    if kind == NOT_FROM:
        return has(effect, NOT_B, relation, first=first) or has(effect, NOT_INTO, relation)
    if kind == NOT_INTO:
        return has(effect, NOT_B, relation, second=first) or has(effect, NOT_FROM, relation)
    return False


def follows(literals, literal):
    """Whether the literal is among the literals, or plainly follows from one of them."""
    kind, relation, first, _ = literal
    if literal in literals:
        return True
    if kind == FROM:
        return has(literals, B, relation, first=first)
    if kind == INTO:
        return has(literals, B, relation, second=first)
    return kind == NOT_B and shut(literals, literal)


def pattern_covers(pattern, row, matching):
    """Whether every literal of the row, renamed by the matching, follows from the pattern."""
    return all(follows(pattern.literals, literal) for literal in rename_all(row.literals, matching))


def holds(state, literal):
    """Whether a ground literal holds in a state, which is a set of ground literals of kinds A and B."""
    kind, relation, first, _ = literal
    if kind in (NOT_A, NOT_B, NOT_FROM, NOT_INTO):
        return not holds(state, denial(literal))
    if kind == FROM:
        return has(state, B, relation, first=first)
    if kind == INTO:
        return has(state, B, relation, second=first)
    return literal in state


def objects_of(state):
    """The objects that a state names."""
    return {atom.first for atom in state} | {atom.second for atom in state if atom.kind == B}


def pattern_stands(state, pattern):
    """Whether the variables can be placed on different objects that make every literal true.

    Objects that the state does not name are all alike, so as many of them as there are variables are enough to try.
    """
    named = objects_of(state)
    first_unnamed = max(named, default=-1) + 1
    objects = sorted(named) + [first_unnamed + i for i in range(pattern.variables)]
    return any(
        all(holds(state, literal) for literal in rename_all(pattern.literals, placing))
        for placing in permutations(objects, pattern.variables))


# ------------------------------------------------------------------------------------------------- the pattern kinds

IDLE, OWN, OPEN = "idle", "own", "open"
MALFORMED, COVERS, DOES_NOT_COVER = "malformed", "covers", "does not cover"


class Atoms:
    """Books over atoms."""

    def __init__(self):
        """An empty book."""
        self.opening, self.rules, self.rows = frozenset(), [], []

    def stands(self, state, row):
        """Whether a row stands in a state."""
        return pattern_stands(state, self.rows[row])

    def cases(self, rule, row):
        """How many cases a rule and a row have."""
        k, m = self.rules[rule].variables, self.rows[row].variables
        return (m + k) ** k

    def renaming(self, rule, row, case):
        """The digits of a case: what each variable of the rule becomes."""
        k, m = self.rules[rule].variables, self.rows[row].variables
        return [case // (m + k) ** i % (m + k) for i in range(k)]

    def proper(self, rule, row, case):
        """Whether new variables come in their order."""
        m, digits = self.rows[row].variables, self.renaming(rule, row, case)
        return all(digit <= m or digit - 1 in digits[:i] for i, digit in enumerate(digits))

    def earlier(self, rule, row, case):
        """The earlier pattern of a case, or None where the case is idle."""
        if not self.proper(rule, row, case):
            return None
        k, condition, effect = self.rules[rule]
        m, literals = self.rows[row]
        digits = self.renaming(rule, row, case)
        condition, effect = rename_all(condition, digits), rename_all(effect, digits)
        if contradictory(effect) or any(made_false(effect, literal) for literal in literals):
            return None
        kept = [l for l in literals if not made_true(effect, l) and not loosened(effect, l)]
        if contradictory(condition + kept):
            return None
        return Pattern(m + k, condition + kept)

    def sort(self, rule, row, case):
        """Whether a case is idle, own or open."""
        earlier = self.earlier(rule, row, case)
        if earlier is None:
            return IDLE
        kept = range(self.rows[row].variables)
        return OWN if pattern_covers(earlier, self.rows[row], kept) else OPEN

    def answer(self, rule, row, case, named, matching):
        """Whether a matching is malformed, covers the named row or does not."""
        variables = self.rules[rule].variables + self.rows[row].variables
        if len(matching) != self.rows[named].variables:
            return MALFORMED
        if len(set(matching)) != len(matching) or any(number >= variables for number in matching):
            return MALFORMED
        earlier = self.earlier(rule, row, case)
        if earlier is not None and pattern_covers(earlier, self.rows[named], matching):
            return COVERS
        return DOES_NOT_COVER


class Counts:
    """Books over counted places."""

    def __init__(self):
        """An empty book."""
        self.opening, self.rules, self.rows = (), [], []

    def stands(self, state, row):
        """Whether a row stands in a state."""
        return at_most(self.rows[row], state)

    def cases(self, _rule, _row):
        """How many cases a rule and a row have."""
        return 1

    def earlier(self, rule, row, _case):
        """The earlier pattern: what is needed before, at each place."""
        takes, gives = self.rules[rule]
        return tuple(t + max(0, r - g) for t, g, r in zip(takes, gives, self.rows[row]))

    def sort(self, rule, row, case):
        """Whether a case is own or open; none is idle."""
        return OWN if at_most(self.rows[row], self.earlier(rule, row, case)) else OPEN

    def answer(self, rule, row, case, named, matching):
        """Whether a matching, which must be empty, covers the named row."""
        if matching:
            return MALFORMED
        return COVERS if at_most(self.rows[named], self.earlier(rule, row, case)) else DOES_NOT_COVER


def at_most(smaller, larger):
    """Whether one list of counts is at most as large as another everywhere."""
    return all(s <= l for s, l in zip(smaller, larger))


class Observer:
    """An observer over a pattern kind; its rows are pairs of a row below and a mode."""

    def __init__(self, below):
        """An observer without moves or rows."""
        self.below, self.moves, self.rows = below, [], []

    @property
    def opening(self):
        """The opening state below, and mode 0."""
        return (self.below.opening, 0)

    @property
    def rules(self):
        """The rules are those below."""
        return self.below.rules

    def stands(self, state, row):
        """Whether the row below stands in the state below, and the mode is the row's."""
        state_below, mode = state
        row_below, row_mode = self.rows[row]
        return mode == row_mode and self.below.stands(state_below, row_below)

    def cases(self, rule, row):
        """Four times the cases below: one for each earlier mode."""
        return 4 * self.below.cases(rule, self.rows[row][0])

    def parts(self, rule, row, case):
        """The earlier mode and the case below of a case."""
        return divmod(case, self.below.cases(rule, self.rows[row][0]))

    def sort(self, rule, row, case):
        """Whether a case is idle, own or open."""
        row_below, row_mode = self.rows[row]
        mode, case_below = self.parts(rule, row, case)
        if self.moves[rule][mode] != row_mode:
            return IDLE
        below = self.below.sort(rule, row_below, case_below)
        if below == OWN and mode != row_mode:
            return OPEN
        return below

    def answer(self, rule, row, case, named, matching):
        """What the kind below answers, but only a pair of the earlier mode is covered."""
        mode, case_below = self.parts(rule, row, case)
        named_below, named_mode = self.rows[named]
        below = self.below.answer(rule, self.rows[row][0], case_below, named_below, matching)
        if below == COVERS and named_mode != mode:
            return DOES_NOT_COVER
        return below


# ---------------------------------------------------------------------------------------------------------- the file

HEAD, OPENING, RULE, ROW, MOVES, OBSERVER_ROW, ENTRY, END = range(1, 9)
MOST_BYTES, MOST_RULES, MOST_ROWS = 65535, 32, 64
TOO_LONG, CUT_SHORT, KIND_NOT_ALLOWED, WRONG_LENGTH, OUT_OF_RANGE = 1, 2, 3, 4, 5


class FormFault(Exception):
    """A dossier that is not in form: the number of the ground, and the place of the record at fault."""

    def __init__(self, number, place):
        """Number and place."""
        super().__init__(number, place)
        self.number, self.place = number, place


def two_bytes(data):
    """The numbers of two bytes each, low byte first."""
    return tuple(int.from_bytes(data[i:i + 2], "little") for i in range(0, len(data), 2))


def fours(data):
    """The data in pieces of four bytes."""
    return [tuple(data[i:i + 4]) for i in range(0, len(data), 4)]


def take_record(data, place):
    """The kind and body of the record at a place."""
    if place + 4 > len(data):
        raise FormFault(CUT_SHORT, place)
    length, kind = two_bytes(data[place:place + 4])
    if place + 4 + length > len(data):
        raise FormFault(CUT_SHORT, place)
    return kind, data[place + 4:place + 4 + length]


class Reading:
    """What the records so far hold."""

    def __init__(self):
        """Nothing read yet."""
        self.last = None
        self.atoms, self.observers_to_come, self.places = False, 0, 0
        self.book, self.entries = None, []

    def record(self, kind, body, place):
        """Take in one more record, or say what is wrong with it."""
        if kind not in self.allowed():
            raise FormFault(KIND_NOT_ALLOWED, place)
        if not self.right_length(kind, body):
            raise FormFault(WRONG_LENGTH, place)
        if not self.in_range(kind, body):
            raise FormFault(OUT_OF_RANGE, place)
        self.hold(kind, body)
        self.last = kind

    def allowed(self):
        """The kinds that the next record may have."""
        if self.last is None:
            return {HEAD}
        if self.last == HEAD:
            return {OPENING}
        if self.last == OPENING:
            return {RULE}
        if self.last == RULE:
            return {RULE, ROW} if len(self.book.rules) < MOST_RULES else {ROW}
        if self.last == MOVES:
            return {OBSERVER_ROW}
        if self.last in (ROW, OBSERVER_ROW):
            more = {self.last} if len(self.book.rows) < MOST_ROWS else set()
            return more | ({MOVES} if self.observers_to_come else {ENTRY, END})
        return {ENTRY, END}

    def right_length(self, kind, body):
        """Whether a body has the length that it must have, by the counts in it."""
        n = len(body)
        if kind == HEAD:
            return n == 3
        if kind == OPENING:
            return n % 4 == 0 and n <= 96 if self.atoms else n == 2 * self.places
        if kind == RULE:
            return n >= 3 and n == 3 + 4 * (body[1] + body[2]) if self.atoms else n == 2 * self.places
        if kind == ROW:
            return n >= 2 and n == 2 + 4 * body[1] if self.atoms else n == 2 * self.places
        if kind == MOVES:
            return n == 4 * len(self.book.rules)
        if kind == OBSERVER_ROW:
            return n == 2
        if kind == ENTRY:
            return 1 <= n <= 6
        return n == 0

    def in_range(self, kind, body):
        """Whether every number of a body of the right length is in its range."""
        if kind == HEAD:
            most, least = (0, 0) if body[0] == 1 else (12, 1)
            return body[0] in (1, 2) and body[1] <= 2 and least <= body[2] <= most
        if kind == OPENING and self.atoms:
            return all(atom_in_range(atom) for atom in fours(body))
        if kind == RULE and self.atoms:
            k, conditions, effects = body[:3]
            literals = fours(body[3:])
            return (k <= 4 and conditions <= 12 and effects <= 12
                    and all(literal_in_range(l, range(8), k) for l in literals[:conditions])
                    and all(literal_in_range(l, (0, 1, 2, 3, 5, 7), k) for l in literals[conditions:]))
        if kind == ROW and self.atoms:
            m, count = body[:2]
            return m <= 5 and count <= 16 and all(literal_in_range(l, range(8), m) for l in fours(body[2:]))
        if kind == MOVES:
            return all(mode <= 3 for mode in body)
        if kind == OBSERVER_ROW:
            return body[0] < len(self.book.below.rows) and body[1] <= 3
        return True

    def hold(self, kind, body):
        """Keep what a record in form holds."""
        if kind == HEAD:
            self.atoms, self.observers_to_come, self.places = body[0] == 1, body[1], body[2]
            self.book = Atoms() if self.atoms else Counts()
        elif kind == OPENING:
            self.book.opening = frozenset(Literal(*l) for l in fours(body)) if self.atoms else two_bytes(body)
        elif kind == RULE:
            self.book.rules.append(atoms_rule(body) if self.atoms else (body[:self.places], body[self.places:]))
        elif kind == ROW:
            self.book.rows.append(atoms_row(body) if self.atoms else two_bytes(body))
        elif kind == MOVES:
            self.book, self.observers_to_come = Observer(self.book), self.observers_to_come - 1
            self.book.moves = fours(body)
        elif kind == OBSERVER_ROW:
            self.book.rows.append(tuple(body))
        elif kind == ENTRY:
            self.entries.append((body[0], tuple(body[1:])))


def atom_in_range(atom):
    """Whether four bytes are a ground atom of an opening state."""
    kind, relation, first, second = atom
    return kind in (A, B) and relation < 8 and first < 16 and second < (16 if kind == B else 1)


def literal_in_range(literal, kinds, variables):
    """Whether four bytes are a literal of one of these kinds over so many variables."""
    kind, relation, first, second = literal
    return kind in kinds and relation < 8 and first < variables and second < (variables if kind in TWO_PLACE else 1)


def atoms_rule(body):
    """The rule that a body in form holds."""
    literals = [Literal(*l) for l in fours(body[3:])]
    return Rule(body[0], literals[:body[1]], literals[body[1]:])


def atoms_row(body):
    """The row that a body in form holds."""
    return Pattern(body[0], [Literal(*l) for l in fours(body[2:])])


def read(data):
    """The book and the entries that a dossier holds."""
    if len(data) > MOST_BYTES:
        raise FormFault(TOO_LONG, 0)
    reading, place = Reading(), 0
    while reading.last != END:
        kind, body = take_record(data, place)
        reading.record(kind, body, place)
        place += 4 + len(body)
    if place < len(data):
        raise FormFault(KIND_NOT_ALLOWED, place)
    return reading.book, reading.entries


# --------------------------------------------------------------------------------------------------------- the judge

STANDS, NO_ENTRY, NO_SUCH_ROW, BAD_MATCHING, NOT_COVERED, LEFT_OVER = range(11, 17)


class Refusal(NamedTuple):
    """The first failure of a table."""
    number: int
    row: int = 0
    rule: int = 0
    case: int = 0
    entry: int = 0


def walk(book):
    """Every row, rule and case, in the order of the judge."""
    for row in range(len(book.rows)):
        for rule in range(len(book.rules)):
            for case in range(book.cases(rule, row)):
                yield row, rule, case


def fault_of_entry(book, row, rule, case, entry):
    """The number of what is wrong with the entry for an open case, or None."""
    if entry is None:
        return NO_ENTRY
    named, matching = entry
    if named >= len(book.rows):
        return NO_SUCH_ROW
    answer = book.answer(rule, row, case, named, matching)
    return {MALFORMED: BAD_MATCHING, DOES_NOT_COVER: NOT_COVERED, COVERS: None}[answer]


def judge(book, entries):
    """The first failure of a table, or None where it is accepted."""
    for row in range(len(book.rows)):
        if book.stands(book.opening, row):
            return Refusal(STANDS, row)
    used = 0
    for row, rule, case in walk(book):
        if book.sort(rule, row, case) == OPEN:
            entry = entries[used] if used < len(entries) else None
            number = fault_of_entry(book, row, rule, case, entry)
            if number is not None:
                return Refusal(number, row, rule, case, used)
            used += 1
    return Refusal(LEFT_OVER, entry=used) if used < len(entries) else None


def line(data):
    """The line for a dossier's bytes, without its line feed."""
    try:
        refusal = judge(*read(data))
    except FormFault as fault:
        return f"FORM {fault.number} at {fault.place}"
    if refusal is None:
        return "ACCEPT"
    number, row, rule, case, entry = refusal
    return f"REFUSE {number} row {row} rule {rule} case {case} entry {entry}"
