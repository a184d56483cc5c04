#!/usr/bin/env python3
"""The inputs of the readings of C-19, row by row, on the built library and on forest_model.py. What is wanted is written out by hand.

Each row is named by its reading. A and B are 01's grammars, K is S ::= 0 | 1; a position is the list of its kinds; units are hexadecimal.
"""

import sys

import forest_numbers as rows
import model
from expecting import passed
from forest_numbers import A, ALL_ONES, B, K, expect, units
from model import words_of_positions

LIST = model.make_file(6, 2, [(4, 2, 5), (2, 2, 3), (2, 3, None), (3, 0, None), (3, 1, None)])  # S ::= S X | X, X ::= 0 | 1
TWINS = model.make_file(6, 3, [(4, 3, 5), (3, 0, 0), (3, 1, 1)])  # S ::= 0 0 | 1 1, and a token 2 that nothing uses


class Parse(rows.Parse):
    """A started parse, over positions."""

    def kinds(self, *kinds):
        answer, self.state = rows.engine.kinds(self.file, self.state, self.buffers, list(kinds))
        return answer

    def run_kinds(self, words):
        answer, self.state, taken = rows.engine.run_kinds(self.file, self.state, self.buffers, words)
        return answer, taken

    def spelling(self, *positions):
        for position in positions:
            expect(f"position {position} of {positions}", self.kinds(*position), 0)
        return self

    def whole(self):
        """State and words."""
        return self.state, self.words()

    def expected(self):
        place = [0] * 8
        answer, count = rows.engine.expected(self.file, self.state, self.buffers, place)
        return answer, place[:count]


def no_position():
    for name, file, kinds, wanted in [
            ("K, no kind", K, [], 5), ("K, falling", K, [1, 0], 5), ("K, twice", K, [0, 0], 5), ("K, T", K, [0, 2], 5), ("K, T alone", K, [2], 5),
            ("K, the greatest word", K, [0, 65535], 5), ("K, rising and then falling", K, [0, 1, 0], 5),
            ("A, 0 is predicted and 2 is no token", A, [0, 2], 5), ("A, 1 is not predicted and 2 is no token", A, [1, 2], 5),
            ("A, two that are not predicted or do not rise", A, [1, 1], 5), ("A, not predicted", A, [1], 6), ("B, neither predicted", B, [1, 2], 6)]:
        parse = Parse(file)
        before = parse.whole()
        expect(f"19.1 {name}: {kinds}", parse.kinds(*kinds), wanted)
        expect(f"19.1 {name}: {kinds} leaves state and words", parse.whole(), before)
        expect(f"19.1 {name}: {kinds} in a run", parse.run_kinds([len(kinds), *kinds]), (wanted, 0))
    parse = Parse(A).after(0)
    parse.buffers.store[10] = 0
    expect("19.1 4 comes before 5", parse.kinds(), 4)
    expect("19.1 4 comes before 5, in a run", parse.run_kinds([0]), (4, 0))
    expect("19.1 1 comes before 4", rows.engine.kinds(A[:10], parse.state, parse.buffers, []), (1, parse.state))
    broken = A[:7] + b"\0\0" + A[9:]
    expect("19.1 2 comes before 4", rows.engine.run_kinds(broken, parse.state, parse.buffers, [0]), (2, parse.state, 0))


def passed_over():
    both, zero = Parse(A).spelling([0, 1]), Parse(A).after(0)
    expect("19.2 A [0 1] at the start: units", both.used(), units("8000 0102 2202"))
    expect("19.2 A [0 1] at the start is token 0", both.whole(), zero.whole())
    expect("19.2 A [0 1] behind it is token 1", both.spelling([0, 1]).whole(), zero.after(1).whole())
    expect("19.2 A [0 1] and again: finished", both.spelling([0, 1]).finished(), (0, True, 10))
    expect("19.2 A, no room for what is passed over", Parse(A, 3, 2, 1, 3).kinds(0, 1), 0)


def one_node_a_kind():
    for room, wanted in [
            ((0, 0, 0, 2), 14), ((1, 0, 0, 2), 7), ((1, 1, 0, 2), 8), ((1, 1, 1, 2), 14), ((2, 1, 1, 2), 7), ((2, 2, 1, 2), 8), ((2, 2, 2, 2), 14),
            ((4, 2, 2, 2), 14), ((5, 2, 2, 2), 7), ((5, 3, 2, 1), 9), ((5, 3, 2, 2), 0)]:
        store, items, queue, sets = room
        parse = Parse(K, items, sets, queue, store)
        before = parse.whole()
        expect(f"19.3 K [0 1], U I Q E {room}", parse.kinds(0, 1), wanted)
        if wanted:
            expect(f"19.3 {wanted} leaves state and words", parse.whole(), before)
    parse = Parse(K).spelling([0, 1])
    expect("19.3 K [0 1]: units", parse.used(), units("8000 8001 0202 2202 2401"))
    expect("19.3 K [0 1]: state, items, finished", (parse.state, parse.buffers.items[:3], parse.finished()), ((1, 1, 5), [0, 0, 2], (0, True, 2)))
    expect("19.3 K [0 1]: trees", parse.trees(), [(2, 1), (1, 0)])


def tokens():
    for t in range(4):
        one, other = Parse(A).after(0), Parse(A).after(0)
        expect(f"19.4 A 0, token {t} is the position of it", (one.kinds(t), one.whole()), (other.token(t), other.whole()))
    expect("19.4 a token past a u16", Parse(A).token(65536), 5)


def runs():
    for name, file, words, wanted in [
            ("the reading's", LIST, [2, 0, 1, 1, 0, 0, 3, 1], (5, 2)), ("without the position of no kind", LIST, [2, 0, 1, 1, 0, 3, 1], (5, 2)),
            ("whole positions", LIST, [2, 0, 1, 1, 0], (0, 2)), ("no words", LIST, [], (0, 0)), ("a number and nothing behind it", LIST, [1], (5, 0)),
            ("a zero", LIST, [0], (5, 0)), ("cut off behind a position", LIST, [1, 0, 2, 1], (5, 1)), ("the greatest number", LIST, [1, 1, 65535, 0], (5, 1)),
            ("a kind that is no token", LIST, [1, 1, 2, 0, 2, 1, 0], (5, 1)), ("6 before what is cut off", A, [1, 1, 5], (6, 0)),
            ("5 before 6 behind it", A, [1, 0, 0, 1, 0], (5, 1))]:
        parse = Parse(file)
        expect(f"19.5 {name}: {words}", parse.run_kinds(words), wanted)
        single = Parse(file).spelling(*model.positions_in(words)[:wanted[1]])
        expect(f"19.5 {name}: {words} is one call a position", parse.whole(), single.whole())
    expect("19.5 the positions of the reading's words", model.positions_in([2, 0, 1, 1, 0, 0, 3, 1]), [[0, 1], [0], [], []])
    expect("19.5 a run of tokens", Parse(A).run_kinds(words_of_positions([[0], [1], [0]])), (0, 3))
    bad = Parse(A).after(0)
    bad.buffers.store[10] = 0
    expect("19.5 an empty run still checks", bad.run_kinds([]), (4, 0))


def spelt():
    for positions, answer, finished, trees in [
            ([[0, 1]], 0, False, []), ([[0, 1], [0]], 0, True, [(1, 0, 0)]), ([[0, 1], [1]], 0, True, [(2, 1, 1)]), ([[0, 1], [0, 1]], 0, True, [(2, 1, 1), (1, 0, 0)]),
            ([[0], [1]], 6, False, []), ([[0, 2], [0, 1, 2]], 0, True, [(1, 0, 0)]), ([[2]], 6, False, []), ([[0, 1], [0, 1], [0, 1, 2]], 6, True, [(2, 1, 1), (1, 0, 0)])]:
        parse = Parse(TWINS).spelling(*positions[:-1])
        expect(f"19.6 S ::= 0 0 | 1 1, {positions}", parse.kinds(*positions[-1]), answer)
        expect(f"19.6 {positions}: finished", parse.finished()[1], finished)
        expect(f"19.6 {positions}: trees", parse.trees() if finished else [], trees)
        expect(f"19.6 {positions}: no handle where it is not", parse.finished()[2] == ALL_ONES, not finished)
    expect("19.6 [0 1]: what could stand next", Parse(TWINS).spelling([0, 1]).expected(), (0, [0, 1]))
    expect("19.6 [0]: what could stand next", Parse(TWINS).spelling([0]).expected(), (0, [0]))


def main():
    for rows.engine_name, rows.engine in rows.ENGINES.items():
        for part in (no_position, passed_over, one_node_a_kind, tokens, runs, spelt):
            part()
    return 0 if passed() else 1


if __name__ == "__main__":
    sys.exit(main())
