"""Corners whose line is written down by hand: numbers and counts at their limits and beyond, files of the greatest
length, and every ground for which the judge refuses a table."""

from judging import END, ENTRY, HEAD, MOVES, OBSERVER_ROW, OPENING, ROW, RULE
from records import Corner, corner, joined, parted, place_of, record, with_body, with_kind

ACCEPT = "ACCEPT"
FIRST_ROW_STANDS = "REFUSE 11 row 0 rule 0 case 0 entry 0"

# Rule 0 gives a0(x) to any x, the fault is a1: no entry is needed.
SMALL_ATOMS = [
    (HEAD, bytes([1, 0, 0])), (OPENING, b""),
    (RULE, bytes([1, 0, 1, 0, 0, 0, 0])), (ROW, bytes([1, 1, 0, 1, 0, 0])), (END, b"")]
# One place, a rule that does nothing, the fault is one there: no entry is needed.
SMALL_COUNTS = [
    (HEAD, bytes([2, 0, 1])), (OPENING, bytes([0, 0])), (RULE, bytes([0, 0])), (ROW, bytes([1, 0])), (END, b"")]
# The same below two observers that never move; the fault is mode 3 of both.
SMALL_OBSERVED = [
    (HEAD, bytes([2, 2, 1])), *SMALL_COUNTS[1:4],
    (MOVES, bytes([0, 1, 2, 3])), (OBSERVER_ROW, bytes([0, 0])), (OBSERVER_ROW, bytes([0, 3])),
    (MOVES, bytes([0, 1, 2, 3])), (OBSERVER_ROW, bytes([1, 3])), (END, b"")]
MOVES_1, PAIR_1, MOVES_2, PAIR_2, LAST = 4, 6, 7, 8, 9  # records of SMALL_OBSERVED


def bodies(records, index, cases):
    """Corners with other bodies for one record; a case is a name, a body, and a line or the number of a form fault."""
    kind, place = records[index][0], place_of(records, index)
    for what, body, answer in cases:
        known = f"FORM {answer} at {place}" if isinstance(answer, int) else answer
        yield corner(f"record of kind {kind}: {what}", with_body(records, index, body), known)


def heads():
    """Heads at and beyond their limits."""
    yield from bodies(SMALL_ATOMS, 0, [
        ("empty", [], 4),
        ("two bytes", [1, 0], 4),
        ("four bytes", [1, 0, 0, 0], 4),
        ("four bytes, all out of range", [9, 9, 9, 9], 4),
        ("pattern kind 0", [0, 0, 0], 5),
        ("pattern kind 3", [3, 0, 0], 5),
        ("three observers", [1, 3, 0], 5),
        ("places for atoms", [1, 0, 1], 5),
    ])
    yield from bodies(SMALL_COUNTS, 0, [("no places", [2, 0, 0], 5), ("13 places", [2, 0, 13], 5)])
    full = [(HEAD, bytes([2, 0, 12])), (OPENING, bytes(24)), (RULE, bytes(24)), (ROW, bytes(22) + b"\1\0"), (END, b"")]
    yield corner("12 places", joined(full), ACCEPT)


def openings():
    """Openings at and beyond their limits."""
    pair = bytes([2, 7, 15, 15])
    yield from bodies(SMALL_ATOMS, 1, [
        ("the highest pair", pair, ACCEPT),
        ("the highest one-place atom", [0, 7, 15, 0], ACCEPT),
        ("24 atoms, all the same", pair * 24, ACCEPT),
        ("25 atoms", pair * 25, 4),
        ("25 atoms out of range", b"\xff" * 100, 4),
        ("three bytes", pair[:3], 4),
        ("relation 8", [2, 8, 0, 0], 5),
        ("object 16", [0, 0, 16, 0], 5),
        ("second object 16", [2, 0, 0, 16], 5),
        ("second object of a one-place atom", [0, 0, 0, 1], 5),
        ("object 16 in the last of 24", pair * 23 + bytes([2, 7, 16, 15]), 5),
        ("the fault", [0, 1, 9, 0], FIRST_ROW_STANDS),
        *((f"kind {kind}", [kind, 0, 0, 0], 5) for kind in (1, 3, 4, 5, 6, 7, 8, 255)),
    ])
    yield from bodies(SMALL_COUNTS, 1, [
        ("empty", [], 4),
        ("one byte", bytes(1), 4),
        ("three bytes", bytes(3), 4),
        ("65,535", [255, 255], FIRST_ROW_STANDS),
    ])


def rules():
    """Rules at and beyond their limits."""
    a0 = bytes(4)
    yield from bodies(SMALL_ATOMS, 2, [
        ("empty", [], 4),
        ("two bytes", [1, 0], 4),
        ("no variable and no literal", [0, 0, 0], ACCEPT),
        ("four variables", [4, 0, 0], ACCEPT),
        ("five variables", [5, 0, 0], 5),
        ("five variables, a literal missing", [5, 0, 1], 4),
        ("12 conditions and 12 effects", bytes([1, 12, 12]) + a0 * 24, ACCEPT),
        ("13 conditions", bytes([1, 13, 0]) + a0 * 13, 5),
        ("13 effects", bytes([1, 0, 13]) + a0 * 13, 5),
        ("13 effects, one missing", bytes([1, 0, 13]) + a0 * 12, 4),
        ("255 and 255 literals, none there", [1, 255, 255], 4),
        ("a byte too many", bytes([1, 0, 1]) + a0 + b"\0", 4),
        ("a literal but no variable", bytes([0, 1, 0]) + a0, 5),
        ("relation 8", [1, 1, 0, 0, 8, 0, 0], 5),
        ("variable 1 of 1", [1, 1, 0, 0, 0, 1, 0], 5),
        ("second variable 1 of 1", [1, 1, 0, 2, 0, 0, 1], 5),
        *((f"condition of kind {kind}", [1, 1, 0, kind, 0, 0, 0], ACCEPT) for kind in range(8)),
        *((f"condition of kind {kind}", [1, 1, 0, kind, 0, 0, 0], 5) for kind in (8, 255)),
        *((f"effect of kind {kind}", [1, 0, 1, kind, 0, 0, 0], ACCEPT) for kind in (0, 1, 2, 3, 5, 7)),
        *((f"effect of kind {kind}", [1, 0, 1, kind, 0, 0, 0], 5) for kind in (4, 6, 8, 255)),
        *((f"second variable at kind {kind}", [2, 1, 0, kind, 0, 0, 1], ACCEPT) for kind in (2, 3)),
        *((f"second variable at kind {kind}", [2, 1, 0, kind, 0, 0, 1], 5) for kind in (0, 1, 4, 5, 6, 7)),
    ])
    yield from bodies(SMALL_COUNTS, 2, [
        ("one byte", bytes(1), 4),
        ("three bytes", bytes(3), 4),
        ("takes 255", [255, 0], ACCEPT),
        ("takes and gives 255", [255, 255], ACCEPT),
        ("gives 1", [0, 1], "REFUSE 12 row 0 rule 0 case 0 entry 0"),
    ])


def rows():
    """Rows at and beyond their limits."""
    a1 = bytes([0, 1, 0, 0])
    yield from bodies(SMALL_ATOMS, 3, [
        ("empty", [], 4),
        ("one byte", [1], 4),
        ("no variable and no literal", [0, 0], FIRST_ROW_STANDS),
        ("five variables and no literal", [5, 0], FIRST_ROW_STANDS),
        ("five variables", bytes([5, 1]) + a1, ACCEPT),
        ("six variables", bytes([6, 1]) + a1, 5),
        ("six variables, a literal missing", bytes([6, 2]) + a1, 4),
        ("16 literals", bytes([1, 16]) + a1 * 16, ACCEPT),
        ("17 literals", bytes([1, 17]) + a1 * 17, 5),
        ("17 literals, one missing", bytes([1, 17]) + a1 * 16, 4),
        ("a literal but no variable", bytes([0, 1]) + a1, 5),
        ("kind 8", [1, 1, 8, 1, 0, 0], 5),
        ("relation 8", [1, 1, 0, 8, 0, 0], 5),
        ("variable 1 of 1", [1, 1, 0, 1, 1, 0], 5),
        ("second variable 1 of 1", [1, 1, 2, 1, 0, 1], 5),
        ("variables 3 and 4 of 5", [5, 1, 2, 1, 3, 4], ACCEPT),
        *((f"only a literal of kind {kind}", [1, 1, kind, 1, 0, 0], ACCEPT) for kind in (0, 2, 4, 6)),
        *((f"only a denial, kind {kind}", [1, 1, kind, 1, 0, 0], FIRST_ROW_STANDS) for kind in (1, 3, 5, 7)),
        *((f"second variable at kind {kind}", [2, 1, kind, 1, 0, 1], 5) for kind in (0, 1, 4, 5, 6, 7)),
    ])
    yield from bodies(SMALL_COUNTS, 3, [
        ("one byte", bytes(1), 4),
        ("three bytes", bytes(3), 4),
        ("0", [0, 0], FIRST_ROW_STANDS),
        ("65,535", [255, 255], ACCEPT),
    ])
    largest = SMALL_COUNTS[:2] + [(RULE, bytes([255, 0])), (ROW, b"\xff\xff"), (END, b"")]
    yield corner("more than 65,535 needed before a row", joined(largest), ACCEPT)


def end_after(index):
    """The bytes of the small observed dossier without the records from one to the end."""
    return joined(SMALL_OBSERVED[:index] + SMALL_OBSERVED[LAST:])


def observers():
    """Moves and pairs at and beyond their limits."""
    yield corner("two observers", joined(SMALL_OBSERVED), ACCEPT)
    for index in (MOVES_1, MOVES_2):
        yield from bodies(SMALL_OBSERVED, index, [
            ("empty", [], 4),
            ("three bytes", bytes(3), 4),
            ("eight bytes for one rule", bytes(8), 4),
            ("mode 4", [0, 0, 0, 4], 5),
        ])
    for index, rows_below in ((PAIR_1, 1), (PAIR_2, 2)):
        yield from bodies(SMALL_OBSERVED, index, [
            ("one byte", [0], 4),
            ("three bytes", bytes(3), 4),
            ("mode 4", [0, 4], 5),
            ("no such row below", [rows_below, 0], 5),
        ])
    yield corner("no observer of two", end_after(MOVES_1), f"FORM 3 at {place_of(SMALL_OBSERVED, MOVES_1)}")
    yield corner("one observer of two", end_after(MOVES_2), f"FORM 3 at {place_of(SMALL_OBSERVED, MOVES_2)}")
    yield corner("moves without pairs", end_after(PAIR_2), f"FORM 3 at {place_of(SMALL_OBSERVED, PAIR_2)}")
    third = joined(SMALL_OBSERVED[:LAST] + SMALL_OBSERVED[MOVES_2:])
    yield corner("a third observer", third, f"FORM 3 at {place_of(SMALL_OBSERVED, LAST)}")
    no_moves = joined(SMALL_OBSERVED[:MOVES_1] + SMALL_OBSERVED[MOVES_1 + 1:])
    yield corner("pairs without moves", no_moves, f"FORM 3 at {place_of(SMALL_OBSERVED, MOVES_1)}")


def entries_and_end():
    """Entries at and beyond their lengths, and ends that are none."""
    end = place_of(SMALL_ATOMS, 4)
    for length in range(9):
        known = "REFUSE 16 row 0 rule 0 case 0 entry 0" if 1 <= length <= 6 else f"FORM 4 at {end}"
        entry = (ENTRY, b"\xff" * length)
        yield corner(f"entry of {length} bytes", joined(SMALL_ATOMS[:4] + [entry] + SMALL_ATOMS[4:]), known)
    yield corner("end with a body", with_body(SMALL_ATOMS, 4, [0]), f"FORM 4 at {end}")
    yield corner("end of kind 264", with_kind(SMALL_ATOMS, 4, END + 256), f"FORM 3 at {end}")
    yield corner("end cut short, and not an end", with_kind(SMALL_ATOMS, 4, 9)[:-1], f"FORM 2 at {end}")
    yield corner("no end", joined(SMALL_ATOMS[:4]), f"FORM 2 at {end}")
    yield corner("only an end", record(END), "FORM 3 at 0")
    yield corner("no rule", joined(SMALL_ATOMS[:2] + SMALL_ATOMS[3:]), f"FORM 3 at {place_of(SMALL_ATOMS, 2)}")
    yield corner("no row", joined(SMALL_ATOMS[:3] + SMALL_ATOMS[4:]), f"FORM 3 at {place_of(SMALL_ATOMS, 3)}")
    yield corner("a cut record of a kind not allowed", b"\1\0\7\0", "FORM 2 at 0")
    for length in range(4):
        yield corner(f"{length} bytes", bytes(length), "FORM 2 at 0")


def numbers_of_records():
    """As many records of a kind as there may be, and one more."""
    for records, index, most in [
            (SMALL_ATOMS, 2, 32), (SMALL_ATOMS, 3, 64), (SMALL_COUNTS, 2, 32), (SMALL_COUNTS, 3, 64),
            (SMALL_OBSERVED, 3, 64), (SMALL_OBSERVED, PAIR_1, 63), (SMALL_OBSERVED, PAIR_2, 64)]:
        before, one, after = joined(records[:index]), record(*records[index]), joined(records[index + 1:])
        kind, place = records[index][0], len(before) + most * len(one)
        full, over = [(before, 1), (one, most), (after, 1)], [(before, 1), (one, most + 1), (after, 1)]
        yield Corner(f"the most records of kind {kind}", full, ACCEPT)
        yield Corner(f"one record of kind {kind} too many", over, f"FORM 3 at {place}")


def high_cases():
    """The first open case of a row of five variables and a rule of four, which gives a1 to its last variable.

    It is the first in which the rule's last variable is the row's last. In base 9 its digits are 0, 0, 0 and 4. With
    mode 3 of two observers the number of cases below comes on top 3 times for the lower one, 12 times for the upper.
    """
    rule, row = (RULE, bytes([4, 0, 1, 0, 1, 3, 0])), (ROW, bytes([5, 1, 0, 1, 4, 0]))
    observer = [(MOVES, bytes([0, 1, 2, 3])), (OBSERVER_ROW, bytes([0, 3]))]
    plain = [(HEAD, bytes([1, 0, 0])), (OPENING, b""), rule, row, (END, b"")]
    observed = [(HEAD, bytes([1, 2, 0])), (OPENING, b""), rule, row, *observer, *observer, (END, b"")]
    yield corner("a case of many", joined(plain), "REFUSE 12 row 0 rule 0 case 2916 entry 0")
    yield corner("a case of many, twice observed", joined(observed), "REFUSE 12 row 0 rule 0 case 101331 entry 0")


def longest():
    """An accepted dossier of 65,535 bytes, in pieces.

    All rules lead both observers to mode 0. The first 39 rows have mode 0 of both, the other 15 one of the other pairs
    of modes each. So for each of those 39 rows and each rule all cases but the first are open, and row 38 + c covers
    case c.
    """
    rules_, rows_, pairs = 22, 24, 64
    below = [(OBSERVER_ROW, bytes([0, mode])) for mode in range(4)]
    above = [(OBSERVER_ROW, bytes([case % 4, case // 4])) for case in range(1, 16)]
    entries = [(ENTRY, bytes([38 + case])) for case in range(1, 16)]
    moves = (record(MOVES, bytes(4 * rules_)), 1)
    return [
        (joined([(HEAD, bytes([2, 2, 1])), (OPENING, bytes(2))]), 1),
        (record(RULE, bytes(2)), rules_), (record(ROW, bytes([1, 0])), rows_),
        moves, (joined(below), 1), (record(*below[0]), pairs - 4),
        moves, (record(OBSERVER_ROW, bytes([0, 0])), 39), (joined(above), 1),
        (joined(entries), 39 * rules_), (record(END), 1)]


def lengths():
    """Files of 65,535 and 65,536 bytes."""
    whole, end = longest(), record(END)
    before_end, last = whole[:-2], whole[-2]
    block, times = last
    all_but_one = before_end + [(block, times - 1), (block[:-1], 1)]
    yield Corner("65,535 bytes accepted", whole, ACCEPT)
    yield Corner("65,536 bytes", whole + [(b"\0", 1)], "FORM 1 at 0")
    place = "row 38 rule 21 case 15 entry 12869"
    yield Corner("65,535 bytes, last entry wrong", all_but_one + [(b"\0", 1), (end, 1)], f"REFUSE 15 {place}")
    yield Corner("65,535 bytes, last entry of no row", all_but_one + [(bytes([54]), 1), (end, 1)], f"REFUSE 13 {place}")
    yield Corner("65,535 bytes without an end", whole[:-1] + [(record(9), 1)], "FORM 3 at 65531")
    yield Corner("65,534 bytes, end cut short", whole[:-1] + [(end[:3], 1)], "FORM 2 at 65531")
    yield Corner("65,531 bytes, end missing", whole[:-1], "FORM 2 at 65531")
    yield Corner("65,535 times 0", [(b"\0", 65535)], "FORM 3 at 0")
    yield Corner("65,535 times 255", [(b"\xff", 65535)], "FORM 2 at 0")
    yield Corner("65,536 times 0", [(b"\0", 65536)], "FORM 1 at 0")
    yield Corner("70,000 times 255", [(b"\xff", 70000)], "FORM 1 at 0")
    yield Corner("a head that fills the file", [(b"\xfb\xff\1\0", 1), (b"\0", 65531)], "FORM 4 at 0")
    small = (joined(SMALL_ATOMS[:4]), 1)
    left_over = [small, (record(ENTRY, bytes(6)), 6549), (record(ENTRY, bytes(5)), 1), (end, 1)]
    yield Corner("65,535 bytes, entries left over", left_over, "REFUSE 16 row 0 rule 0 case 0 entry 0")


def judged(ask, semaphore, turns):
    """Every ground of the judge, on the dossiers of three books."""
    yield from judged_atoms(parted(ask))
    yield from judged_counts(parted(semaphore))
    yield from judged_observed(parted(turns))


def judged_atoms(ask):
    """Grounds of the judge on the ask book; records 7 to 9 are its entries."""
    first, last = "row 0 rule 1 case 10 entry 0", "row 1 rule 1 case 11 entry 2"
    yield from bodies(ask, 7, [
        ("row 2, matching empty", [2], f"REFUSE 14 {first}"),
        ("row 3, matching empty", [3], f"REFUSE 13 {first}"),
        ("row 255, matching of five twice the same", [255, 9, 9, 9, 9, 9], f"REFUSE 13 {first}"),
        ("matching too short", [1, 0, 1], f"REFUSE 14 {first}"),
        ("matching too long", [1, 0, 1, 2, 3], f"REFUSE 14 {first}"),
        ("a number twice", [1, 0, 1, 1], f"REFUSE 14 {first}"),
        ("the first number beyond", [1, 0, 1, 5], f"REFUSE 14 {first}"),
        ("number 255", [1, 255, 1, 2], f"REFUSE 14 {first}"),
        ("the last number in range", [1, 0, 1, 4], f"REFUSE 15 {first}"),
        ("another row", [0, 0, 1, 2], f"REFUSE 15 {first}"),
    ])
    yield corner("no entries", joined(ask[:7] + ask[10:]), f"REFUSE 12 {first}")
    yield corner("last entry missing", joined(ask[:9] + ask[10:]), f"REFUSE 12 {last}")
    malformed, left_over = (ENTRY, bytes([255, 9, 9])), "REFUSE 16 row 0 rule 0 case 0 entry 3"
    yield corner("an entry too many", joined(ask[:10] + ask[9:]), left_over)
    yield corner("a malformed entry too many", joined(ask[:10] + [malformed] + ask[10:]), left_over)
    two_ask, one_asks = bytes([2, 1, 0, 9, 2, 1, 15, 9]), bytes([2, 1, 3, 9] * 2)
    yield corner("two ask at the opening", with_body(ask, 1, two_ask), "REFUSE 11 row 2 rule 0 case 0 entry 0")
    yield corner("one asks at the opening, said twice", with_body(ask, 1, one_asks), ACCEPT)


def judged_counts(semaphore):
    """Grounds of the judge on the semaphore book; records 8 to 11 are its entries."""
    first = "row 0 rule 1 case 0 entry 0"
    yield from bodies(semaphore, 8, [
        ("row 3", [3], f"REFUSE 13 {first}"),
        ("row 3 and a matching", [3, 0], f"REFUSE 13 {first}"),
        ("a matching", [1, 0], f"REFUSE 14 {first}"),
        ("a matching, and a row that is not covered", [0, 0], f"REFUSE 14 {first}"),
        ("a row that is not covered", [0], f"REFUSE 15 {first}"),
    ])
    yield corner("no entries", joined(semaphore[:8] + semaphore[12:]), f"REFUSE 12 {first}")
    yield corner("an entry too many", joined(semaphore[:12] + semaphore[11:]), "REFUSE 16 row 0 rule 0 case 0 entry 4")
    two_tokens = with_body(semaphore, 1, [0, 0, 0, 0, 2, 0])
    yield corner("two tokens at the opening", two_tokens, "REFUSE 11 row 2 rule 0 case 0 entry 0")
    yield corner("the fault at the opening", with_body(semaphore, 1, b"\xff" * 6), FIRST_ROW_STANDS)


def judged_observed(turns):
    """Grounds of the judge on the observed pump; records 16 to 21 are its entries."""
    first = "row 0 rule 1 case 1 entry 0"
    yield from bodies(turns, 16, [
        ("row 5", [5], f"REFUSE 13 {first}"),
        ("a matching", [1, 0], f"REFUSE 14 {first}"),
        ("another mode", [0], f"REFUSE 15 {first}"),
        ("another mode and a matching", [0, 0], f"REFUSE 14 {first}"),
    ])
    standing = with_body(turns, 14, [1, 0])
    yield corner("a pair that stands at the opening", standing, "REFUSE 11 row 3 rule 0 case 0 entry 0")


def all_limits(ask, semaphore, turns):
    """All corners whose line is written down by hand."""
    for group in (heads, openings, rules, rows, observers, entries_and_end, numbers_of_records, high_cases,
                  lengths):
        yield from group()
    yield from judged(ask, semaphore, turns)
