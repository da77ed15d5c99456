"""Finding the rows and entries that close a table, by going backwards from the fault.

What a row says, apart from its number, is called its value here: a pattern or a list of counts, and with an observer a
pair of a value below and a mode. A new row is first made as general as some states that are known to be reached allow.
"""

from itertools import product

from judging import (A, B, MOST_ROWS, NOT_B, NOT_FROM, NOT_INTO, OPEN, Atoms, Observer, Pattern, at_most, contradictory,
                     denial, holds, objects_of, pattern_covers, pattern_stands, rename_all)


class NoTable(Exception):
    """Why no table was found."""


# --------------------------------------------------------------------------------------------------- values of rows

def row_value(book, row):
    """What a row of a book says."""
    if isinstance(book, Observer):
        below, mode = book.rows[row]
        return row_value(book.below, below), mode
    return book.rows[row]


def earlier_value(book, rule, row, case):
    """What the earlier pattern of a case says, over all its variables."""
    if isinstance(book, Observer):
        mode, case_below = book.parts(rule, row, case)
        return earlier_value(book.below, rule, book.rows[row][0], case_below), mode
    return book.earlier(rule, row, case)


def tidy(book, value):
    """The same with each literal once, and without the variables that no literal uses."""
    if isinstance(book, Observer):
        return tidy(book.below, value[0]), value[1]
    return tidy_pattern(value) if isinstance(book, Atoms) else value


def tidy_pattern(pattern):
    """The pattern with each literal once, and without the variables that no literal uses."""
    literals = list(dict.fromkeys(pattern.literals))
    used = sorted({l.first for l in literals} | {l.second for l in literals if l.kind in (B, NOT_B)})
    return Pattern(len(used), rename_all(literals, {variable: i for i, variable in enumerate(used)}))


def stands(book, state, value):
    """Whether a row that says this stands in a state."""
    if isinstance(book, Observer):
        return state[1] == value[1] and stands(book.below, state[0], value[0])
    return pattern_stands(state, value) if isinstance(book, Atoms) else at_most(value, state)


def matching_between(book, earlier, value):
    """The lowest matching by which an earlier pattern covers a row that says this, or None."""
    if isinstance(book, Observer):
        return matching_between(book.below, earlier[0], value[0]) if earlier[1] == value[1] else None
    if isinstance(book, Atoms):
        return extended(earlier, value, ())
    return () if at_most(value, earlier) else None


def extended(earlier, row, begun):
    """The lowest matching that begins like this and by which the earlier pattern covers the row, or None."""
    placed = [l for l in row.literals if max(l.first, l.second) < len(begun)]
    if not pattern_covers(earlier, Pattern(len(begun), placed), begun):
        return None
    if len(begun) == row.variables:
        return begun
    more = (extended(earlier, row, (*begun, n)) for n in range(earlier.variables) if n not in begun)
    return next((found for found in more if found is not None), None)


def weaker(book, value):
    """The values that say a little less."""
    if isinstance(book, Observer):
        yield from ((below, value[1]) for below in weaker(book.below, value[0]))
    elif isinstance(book, Atoms):
        for i in range(len(value.literals)):
            yield tidy_pattern(Pattern(value.variables, value.literals[:i] + value.literals[i + 1:]))
    else:
        for i, count in enumerate(value):
            yield from (value[:i] + (less,) + value[i + 1:] for less in range(count))


def within_limits(book, value):
    """Whether a row of a dossier can say this."""
    if isinstance(book, Observer):
        return within_limits(book.below, value[0])
    if isinstance(book, Atoms):
        return value.variables <= 5 and len(value.literals) <= 16
    return max(value) <= 65535


def same(one, other):
    """Whether two rows say the same, their literals in any order."""
    if isinstance(one, Pattern):
        return one.variables == other.variables and set(one.literals) == set(other.literals)
    return one == other


def add_row(book, value):
    """The number of a row that says this, which is added where there is none."""
    row = (add_row(book.below, value[0]), value[1]) if isinstance(book, Observer) else value
    for number, present in enumerate(book.rows):
        if same(present, row):
            return number
    if len(book.rows) == MOST_ROWS:
        raise NoTable(f"more than {MOST_ROWS} rows are needed")
    book.rows.append(row)
    return len(book.rows) - 1


# -------------------------------------------------------------------------------- forwards: states of a small forecourt

def layers(book):
    """The book and all below it, topmost first."""
    return [book, *layers(book.below)] if isinstance(book, Observer) else [book]


def next_states(book, state, objects):
    """For each rule, in order, the states to which it leads from a state."""
    if isinstance(book, Observer):
        below = next_states(book.below, state[0], objects)
        return [{(after, moves[state[1]]) for after in reached} for moves, reached in zip(book.moves, below)]
    if isinstance(book, Atoms):
        return [{fired(state, rule, choice) for choice in product(objects, repeat=rule.variables)} - {None}
                for rule in book.rules]
    return [{tuple(s - t + g for s, t, g in zip(state, takes, gives))} if at_most(takes, state) else set()
            for takes, gives in book.rules]


def fired(state, rule, choice):
    """The state after a rule over atoms fires under a choice, or None where it does not fire."""
    effect = rename_all(rule.effect, choice)
    if contradictory(effect) or not all(holds(state, l) for l in rename_all(rule.condition, choice)):
        return None
    gained = {l for l in effect if l.kind in (A, B)}
    return frozenset(atom for atom in state | gained if not lost(atom, effect))


def lost(atom, effect):
    """Whether an effect denies an atom."""
    if denial(atom) in effect:
        return True
    ends = {NOT_FROM: atom.first, NOT_INTO: atom.second}
    return atom.kind == B and any(l.relation == atom.relation and ends.get(l.kind) == l.first for l in effect)


def explore(book, object_count, most):
    """The first states reached from the opening state, at most so many."""
    base = layers(book)[-1]
    named = objects_of(base.opening) if isinstance(base, Atoms) else set()
    objects = sorted(named | set(range(object_count)))
    found, seen = [book.opening], {book.opening}
    for state in found:
        for after in sorted(set().union(*next_states(book, state, objects)) - seen, key=repr):
            if len(found) < most:
                found.append(after)
                seen.add(after)
    return found


# ---------------------------------------------------------------------------------------------------------- the search

def general(book, value, states):
    """The value made weaker as long as it stands in none of the states."""
    for less in weaker(book, value):
        if not any(stands(book, state, less) for state in states):
            return general(book, less, states)
    return value


def new_row(book, earlier, states):
    """Add a row that the earlier pattern covers; its number."""
    value = tidy(book, earlier)
    if states:
        value = general(book, value, states)
    if not within_limits(book, value):
        raise NoTable(f"a row beyond the limits is needed: {value}")
    if stands(book, book.opening, value):
        raise NoTable(f"a row is needed that stands in the opening state: {value}")
    return add_row(book, value)


def entry_for(book, rule, row, case, states):
    """The lowest row that covers an open case, with its lowest matching; the row is added where there is none."""
    earlier = earlier_value(book, rule, row, case)
    for named in range(len(book.rows)):
        matching = matching_between(book, earlier, row_value(book, named))
        if matching is not None:
            return named, matching
    named = new_row(book, earlier, states)
    return named, matching_between(book, earlier, row_value(book, named))


def close(book, states):
    """The entries for all open cases, in order; rows are added until every case is covered."""
    entries, row = [], 0
    while row < len(book.rows):
        for rule in range(len(book.rules)):
            for case in range(book.cases(rule, row)):
                if book.sort(rule, row, case) == OPEN:
                    entries.append(entry_for(book, rule, row, case, states))
        row += 1
    return entries


def needless(book, values, row):
    """Whether a row says more than another one, or the same as a lower one."""
    return any(
        other != row and matching_between(book, values[row], values[other]) is not None
        and (other < row or matching_between(book, values[other], values[row]) is None)
        for other in range(len(values)))


def strike(book, given):
    """Take out added rows that another row makes needless, and rows below that nothing uses any more."""
    values = [row_value(book, row) for row in range(len(book.rows))]
    kept = [value for row, value in enumerate(values) if row >= given[0] and not needless(book, values, row)]
    for layer, count in zip(layers(book), given):
        del layer.rows[count:]
    for value in kept:
        add_row(book, value)


def complete(book, states):
    """Complete the rows of a book; the entries."""
    given = [len(layer.rows) for layer in layers(book)]
    entries = close(book, states)
    if states:
        strike(book, given)
        entries = close(book, None)
    return entries
