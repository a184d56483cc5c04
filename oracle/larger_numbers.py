#!/usr/bin/env python3
"""The inputs of the readings of C-12 (docs/DECISIONS.md, 12.1 to 12.3, 12.8 and 12.9), row by row, on the built library. What is wanted is
written out by hand. The driver's inputs (12.4 to 12.7) are in tests/driver.
"""

import sys

import forest_model as forest
import library
import model
from by_hand import Parse, expect, passed

A, NESTED, ALL_TOKENS, CHAIN = model.GRAMMAR_A, model.NESTED, model.ALL_TOKENS, model.CHAIN


def checks():
    for reading, file, answer in [
        ("12.1 N 512, T 509, R 510", ALL_TOKENS, 0),
        ("12.1 N 513", model.make_file(513, 509, [(511, 509, 512), (509, 0, None), (510, 0, None)]), 2),
        ("12.1 N 512, T 510", model.make_file(512, 510, [(510, 509, 511)]), 2),
        ("12.1 R 2,048", model.pairs(2048), 0),
        ("12.1 R 2,049", model.pairs(2049), 2),
    ]:
        expect(reading, library.check(library.File(file)), answer)


def rows():
    expect("12.2 A fresh, row 0", Parse(A, sets=1).lent.words()[2], [0x15, 0, 0, 0, 0, 0, 0, 0])
    ones = 0xFFFFFFFFFFFFFFFF  # tokens 0 to 508, S and W: all but the end mark
    expect("12.2 N 512, T 509 fresh, row 0", Parse(ALL_TOKENS, sets=1).lent.words()[2], [ones] * 7 + [ones >> 1])


def started(starts, row_words):
    """What a start in words of 7 answers, and its words."""
    lent = library.Lent(forest.Buffers([7] * 8, [7] * starts, [7] * row_words, [7] * 4, [7] * 5))
    answer, _ = library.begin(library.File(A), forest.FRESH, lent)
    return answer, lent


def sets():
    answer, lent = started(10, 16)
    expect("12.3 10 starts, 16 row words", (answer, lent.words()[1]), (0, [0] * 3 + [7] * 7))
    expect("12.3 the rows of two sets", lent.words()[2], [0x15] + [0] * 15)
    answer, lent = started(10, 23)
    expect("12.3 10 starts, 23 row words", (answer, lent.words()[1], lent.words()[2][16:]), (0, [0] * 3 + [7] * 7, [7] * 7))
    answer, lent = started(10, 7)
    expect("12.3 7 row words", (answer, lent.words()), (3, [[7] * 8, [7] * 10, [7] * 7, [7] * 4, [7] * 5]))


def longest_runs():
    for sets_lent, row_words, read in [("1,024 sets", 8192, 1023), ("2,048 row words", 2048, 255)]:
        lent = library.Lent(forest.Buffers([0] * 12288, [0] * 1025, [0] * row_words, [0] * 2048, [0] * 32768))
        library.begin(library.File(NESTED), forest.FRESH, lent)
        answer, state, taken = library.run(library.File(NESTED), lent.state(), lent, [0] * 1100)
        expect(f"12.8 S ::= 0 S | 1, {sets_lent}", (answer, taken, tuple(state)), (9, read, (read, read, read)))


def reports():
    parse = Parse(CHAIN)
    expect("12.9 a chain, token 0", parse.token(0), 0)
    line = b"508 ::= 509 * 208 @ 0\n"
    text, tokens = [0] * len(line), [0]
    expect("12.9 its listing", (library.listing(parse.file, parse.lent.state(), parse.lent, text), bytes(text)), ((0, len(line)), line))
    expect("12.9 what goes on", (library.expected(parse.file, parse.lent.state(), parse.lent, tokens), tokens), ((0, 1), [208]))
    parse, tokens = Parse(ALL_TOKENS), [0] * 509
    expect("12.9 509 tokens", (library.expected(parse.file, parse.lent.state(), parse.lent, tokens), tokens), ((0, 509), list(range(509))))
    expect("12.9 the last of them", (parse.token(508), parse.finished()), (0, (0, True, 1)))
    line = b"510 ::= 509 * 511 @ 0\n"
    text = [0] * len(line)
    expect("12.9 its listing", (library.listing(parse.file, parse.lent.state(), parse.lent, text), bytes(text)), ((0, len(line)), line))


def main():
    for part in (checks, rows, sets, longest_runs, reports):
        part()
    return 0 if passed() else 1


if __name__ == "__main__":
    sys.exit(main())
