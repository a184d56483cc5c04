#!/usr/bin/env python3
"""The inputs of the readings of C-11 (docs/DECISIONS.md, 11.1 to 11.13), row by row, on the built library. What is wanted is written out by
hand. The place is filled before each call, and what lies in it behind what is written, the parse and the file must stay.
"""

import sys

import library
import model
from by_hand import Parse, expect, passed

A, B = model.GRAMMAR_A, model.GRAMMAR_B
ONE = bytes.fromhex("01 00000017 0004 0001 0002 000200010003 00010000ffff")  # S ::= 0
TWO = model.make_file(5, 2, [(3, 2, 4), (2, 1, None), (2, 0, None)])  # S ::= 1 | 0
BROKEN = A[:-1] + bytes([9])

EXPECTED, LISTING, WORDS, RECORDS = library.expected, library.listing, library.latest_words, library.latest_records
ALL = (EXPECTED, LISTING, WORDS, RECORDS)
TEXT = b"2 ::= 2 * 3 @ 0\n4 ::= 2 * 5 @ 0\n"


def after(file, tokens, answers, **rooms):
    """A parse after tokens with these answers."""
    parse = Parse(file, **rooms)
    expect(f"tokens {tokens} on {file.hex()}", parse.tokens(tokens), answers)
    return parse


def with_word(parse, kind, place, word):
    """The parse with another word among its items (0), starts (1), rows (2) or queue (3), or another unit (4)."""
    parse.lent.parts[kind][0][place] = word
    return parse


def with_file(parse, file):
    parse.file = library.File(file)
    return parse


def parses():
    """The parses of the table, by name."""
    queued = lambda: with_word(Parse(A), 3, 0, 1)
    only_token_0 = with_word(Parse(A), 2, 0, 0b1)
    expect("A, row {0}: token 0", only_token_0.token(0), 0)
    return {
        "A": Parse(A),
        "A 0": after(A, [0], [0]),
        "A 0 0": after(A, [0, 0], [0, 6]),
        "A 0 2": after(A, [0, 2], [0, 5]),
        "A 0 1 0": after(A, [0, 1, 0], [0, 0, 0]),
        "A 1": after(A, [1], [6]),
        "A, I = 2": after(A, [0], [7], items=2),
        "A, Q = 0": after(A, [0], [8], queue=0),
        "A, E = 1": after(A, [0], [9], sets=1),
        "A, U = 2": after(A, [0], [14], units=2),
        "ONE": Parse(ONE),
        "ONE 0": after(ONE, [0], [0]),
        "TWO": Parse(TWO),
        "B": Parse(B),
        "B 0 1 2": after(B, [0, 1, 2], [0, 0, 0]),
        "A, row {0}": with_word(Parse(A), 2, 0, 0b1),
        "A, row {0}, 0": only_token_0,
        "A, row {2, 4}": with_word(Parse(A), 2, 0, 0b10100),
        "A, queue word 0 = 1": queued(),
        "A broken, queue word 0 = 1": with_file(queued(), BROKEN),
        "A cut, queue word 0 = 1": with_file(queued(), A[:-1]),
    }


# Reading, parse, report, elements lent; the answer, the count, what stands in front of the place.
ROWS = [
    ("11.1 tokens alone", "A", EXPECTED, 2, 0, 1, [0]),
    ("11.1 the end mark alone", "ONE 0", EXPECTED, 1, 0, 0, []),
    ("11.1 rising", "TWO", EXPECTED, 2, 0, 2, [0, 1]),
    ("11.1 rising, one short", "TWO", EXPECTED, 1, 13, 2, []),
    ("11.2 no room for it", "A, I = 2", EXPECTED, 2, 0, 1, [0]),
    ("11.2 no room to queue it", "A, Q = 0", EXPECTED, 2, 0, 1, [0]),
    ("11.2 no room for a set", "A, E = 1", EXPECTED, 2, 0, 1, [0]),
    ("11.2 no room for a node", "A, U = 2", EXPECTED, 2, 0, 1, [0]),
    ("11.3 forged", "A, row {0}", EXPECTED, 2, 0, 1, [0]),
    ("11.3 forged, a token later", "A, row {0}, 0", EXPECTED, 2, 0, 0, []),
    ("11.3 forged, the empty set", "A, row {0}, 0", LISTING, 20, 0, 0, []),
    ("11.3 forged, no token", "A, row {2, 4}", EXPECTED, 2, 0, 0, []),
    ("11.4 goes on with a sentence", "A 0", EXPECTED, 2, 0, 1, [1]),
    ("11.5 text", "A 0", LISTING, 32, 0, 32, TEXT),
    ("11.5 text, one short", "A 0", LISTING, 31, 13, 32, []),
    ("11.5 words", "A 0", WORDS, 10, 0, 10, [1, 2, 2, 3, 0, 0, 4, 2, 5, 0]),
    ("11.5 words, one short", "A 0", WORDS, 9, 13, 10, []),
    ("11.5 records", "A 0", RECORDS, 2, 0, 2, [(1, 2, 2, 3, 0), (0, 4, 2, 5, 0)]),
    ("11.5 records, one short", "A 0", RECORDS, 1, 13, 2, []),
    *[("11.6 4 before 13", "A, queue word 0 = 1", report, 0, 4, 0, []) for report in ALL],
    *[("11.6 4 whatever is lent", "A, queue word 0 = 1", report, 40, 4, 0, []) for report in ALL],
    *[("11.6 2 before 4 and 13", "A broken, queue word 0 = 1", report, 0, 2, 0, []) for report in ALL],
    *[("11.6 1 before 4 and 13", "A cut, queue word 0 = 1", report, 0, 1, 0, []) for report in ALL],
    ("11.7 nothing lent, nothing to tell", "A", LISTING, 0, 0, 0, []),
    ("11.7 nothing lent, a token to tell", "A", EXPECTED, 0, 13, 1, []),
    ("11.7 longer", "A 0", LISTING, 40, 0, 32, TEXT),
    ("11.7 longer", "A 0", WORDS, 14, 0, 10, [1, 2, 2, 3, 0, 0, 4, 2, 5, 0]),
    ("11.7 longer", "A 0", RECORDS, 5, 0, 2, [(1, 2, 2, 3, 0), (0, 4, 2, 5, 0)]),
    ("11.8 order of the set", "A 0 1 0", LISTING, 60, 0, 48, b"2 ::= 2 * 3 @ 0\n2 ::= 2 * 3 @ 2\n4 ::= 2 * 5 @ 0\n"),
    ("11.8 pruned", "B 0 1 2", LISTING, 40, 0, 32, b"3 ::= 3 * 4 @ 0\n6 ::= 3 * 7 @ 0\n"),
    ("11.9 fresh, what S begins with", "A", EXPECTED, 1, 0, 1, [0]),
    ("11.9 fresh, what S begins with", "ONE", EXPECTED, 1, 0, 1, [0]),
    ("11.9 fresh, what S begins with", "B", EXPECTED, 3, 0, 1, [0]),
    *[("11.9 fresh, an empty set", "A", report, lent, 0, 0, []) for report in (LISTING, WORDS, RECORDS) for lent in (0, 3)],
    ("11.10 words, pruned", "B 0 1 2", WORDS, 10, 0, 10, [1, 3, 3, 4, 0, 0, 6, 3, 7, 0]),
    ("11.11 records, pruned", "B 0 1 2", RECORDS, 2, 0, 2, [(1, 3, 3, 4, 0), (0, 6, 3, 7, 0)]),
    *[("11.12 each has 13", "A 0", report, 0, 13, count, []) for report, count in zip(ALL, (1, 32, 10, 2))],
    ("11.13 behind a 6", "A 0 0", EXPECTED, 2, 0, 1, [1]),
    ("11.13 behind a 6", "A 0 0", LISTING, 32, 0, 32, TEXT),
    ("11.13 behind a 6 at the start", "A 1", EXPECTED, 2, 0, 1, [0]),
    ("11.13 behind a 5", "A 0 2", EXPECTED, 2, 0, 1, [1]),
]


def one_row(reading, name, parse, report, lent, answer, count, written):
    pattern = [tuple([0xFFFF - k] * 5) if report is RECORDS else (0xFF if report is LISTING else 0xFFFF) - k for k in range(lent)]
    place, state, words, file = pattern[:], parse.lent.state(), parse.lent.words(), parse.file.lent[0][:]
    got = report(parse.file, state, parse.lent, place)
    what = f"{reading}: {name}, {report.__name__} into {lent}"
    expect(what, (got, place), ((answer, count), [*written, *pattern[len(written):]]))
    expect(f"{what}, the parse", (parse.lent.words(), parse.file.lent[0][:]), (words, file))


def around_the_rows(named):
    """What the rows rest on."""
    for name, row in [("A", [0, 2, 4]), ("A 0", [1, 3, 5]), ("ONE 0", [3]), ("A, row {0}", [0]), ("A, row {2, 4}", [2, 4])]:
        expect(f"row of {name}", named[name].row(), row)
    expect("11.3: A, row {2, 4}, token 0", named["A, row {2, 4}"].token(0), 6)
    expect("11.3: A, row {0}, token 0: an empty set", named["A, row {0}, 0"].lent.state(), (1, 0, 1))
    expect("11.4: 0 1 0 is a sentence that goes on so", named["A 0 1 0"].finished(), (0, True, 10))
    expect("11.8: B after 0 1 2 is pruned", named["B 0 1 2"].lent.set.value, 2)


def main():
    named = parses()
    for reading, name, *row in ROWS:
        one_row(reading, name, named[name], *row)
    around_the_rows(named)
    return 0 if passed() else 1


if __name__ == "__main__":
    sys.exit(main())
