"""Dossiers made by chance: small books with tables that often hold for a while, so that the walk goes far."""

from finding import NoTable, entry_for, layers
from judging import (A, B, END, ENTRY, HEAD, MOVES, OBSERVER_ROW, OPEN, OPENING, ROW, RULE, TWO_PLACE, Atoms, Counts,
                     Literal, Observer, Pattern, Rule)
from records import corner, joined

CONDITION_KINDS, EFFECT_KINDS = range(8), (0, 1, 2, 3, 5, 7)
MOST_ENTRIES, MOST_ROWS = 60, 10


def random_literals(chance, variables, kinds, most):
    """Some literals over so many variables, of two relations."""
    literals = []
    for _ in range(chance.randint(0, most) if variables else 0):
        kind = chance.choice(kinds)
        second = chance.randrange(variables) if kind in TWO_PLACE else 0
        literals.append(Literal(kind, chance.randrange(2), chance.randrange(variables), second))
    return literals


def random_atoms(chance):
    """A small book over atoms."""
    book = Atoms()
    book.opening = frozenset(
        Literal(kind, chance.randrange(2), chance.randrange(3), chance.randrange(3) if kind == B else 0)
        for kind in (A, B) for _ in range(chance.choice((0, 0, 1, 2))))
    for _ in range(chance.randint(1, 3)):
        k = chance.choice((0, 1, 1, 2, 2, 2, 3))
        condition = random_literals(chance, k, CONDITION_KINDS, 3)
        book.rules.append(Rule(k, condition, random_literals(chance, k, EFFECT_KINDS, 3)))
    for _ in range(chance.randint(1, 2)):
        m = chance.choice((1, 2, 2, 3))
        positive = Literal(chance.choice((A, B)), chance.randrange(2), 0, 0)
        book.rows.append(Pattern(m, [positive] + random_literals(chance, m, CONDITION_KINDS, 3)))
    return book


def random_counts(chance):
    """A small counted book."""
    book, places = Counts(), chance.randint(1, 4)
    book.opening = random_numbers(chance, places, 3)
    for _ in range(chance.randint(1, 4)):
        book.rules.append((random_numbers(chance, places, 2), random_numbers(chance, places, 2)))
    for _ in range(chance.randint(1, 3)):
        book.rows.append(random_numbers(chance, places, 4))
    return book


def random_numbers(chance, places, most):
    """A number for each place, many of them 0."""
    return tuple(chance.choice((0, 0, chance.randint(0, most))) for _ in range(places))


def random_observer(chance, below):
    """An observer over a book."""
    book = Observer(below)
    book.moves = [tuple(chance.choice((mode, chance.randrange(4))) for mode in range(4)) for _ in book.rules]
    book.rows = [(chance.randrange(len(below.rows)), chance.randrange(4)) for _ in range(chance.randint(1, 3))]
    return book


def random_table(chance, book):
    """Entries for a book; rows are added for a while, and at times an entry is spoilt, left out or doubled."""
    entries = []
    try:
        for row, rule, case in growing_walk(book):
            if book.sort(rule, row, case) == OPEN:
                entries.append(entry_for(book, rule, row, case, None))
            if len(entries) == MOST_ENTRIES or len(book.rows) > MOST_ROWS:
                break
    except NoTable:
        pass
    return spoilt(chance, entries)


def growing_walk(book):
    """The walk of the judge over rows that may grow meanwhile."""
    row = 0
    while row < len(book.rows):
        for rule in range(len(book.rules)):
            for case in range(book.cases(rule, row)):
                yield row, rule, case
        row += 1


def spoilt(chance, entries):
    """The entries, in half of all tables with one of them changed."""
    at, change = chance.randrange(len(entries) + 1), chance.randrange(8)
    if change == 0:
        return entries[:at] + entries[at + 1:]
    if change == 1:
        return entries[:at] + entries[at:at + 1] + entries[at:]
    if change in (2, 3) and at < len(entries):
        row, matching = entries[at]
        row = chance.choice((row, chance.randrange(4)))
        matching = tuple(chance.choice((number, number, chance.randrange(6))) for number in matching)
        return entries[:at] + [(row, matching)] + entries[at + 1:]
    return entries


def flat(literals):
    """The bytes of a list of literals."""
    return b"".join(bytes(literal) for literal in literals)


def two_bytes(numbers):
    """The bytes of a list of numbers of two bytes."""
    return b"".join(number.to_bytes(2, "little") for number in numbers)


def records_of(book, entries):
    """The records of a book with entries."""
    *observers, base = layers(book)
    if isinstance(base, Atoms):
        records = [(HEAD, bytes([1, len(observers), 0])), (OPENING, flat(sorted(base.opening)))]
        records += [(RULE, bytes([k, len(c), len(e)]) + flat(c + e)) for k, c, e in base.rules]
        records += [(ROW, bytes([m, len(literals)]) + flat(literals)) for m, literals in base.rows]
    else:
        records = [(HEAD, bytes([2, len(observers), len(base.opening)])), (OPENING, two_bytes(base.opening))]
        records += [(RULE, bytes(takes + gives)) for takes, gives in base.rules]
        records += [(ROW, two_bytes(row)) for row in base.rows]
    for observer in reversed(observers):
        records.append((MOVES, b"".join(map(bytes, observer.moves))))
        records += [(OBSERVER_ROW, bytes(pair)) for pair in observer.rows]
    return records + [(ENTRY, bytes([row, *matching])) for row, matching in entries] + [(END, b"")]


def random_corner(chance, number):
    """A dossier made by chance."""
    book = random_atoms(chance) if chance.random() < 0.7 else random_counts(chance)
    for _ in range(chance.choice((0, 0, 1, 2))):
        book = random_observer(chance, book)
    entries = random_table(chance, book)
    return corner(f"by chance, {number}", joined(records_of(book, entries)))
