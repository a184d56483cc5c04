#!/usr/bin/env python3
"""Document 01's "Numbers to try" and "Errors that look right", row by row, on the built library. What is wanted is written out by hand.

The marked numbers are proved too (crates/paper); the driver's row is in tests/driver.
"""

import sys

import library
import model
from by_hand import AS_IT_WAS, Parse, expect, passed

A, B, TRIPLE = model.GRAMMAR_A, model.GRAMMAR_B, [0, 1, 2]
SUM, PRODUCT, NULLING_LEAF = 0, 1, 2


def ran(file, tokens, **rooms):
    """What a run answers and how many tokens it took, whether it is finished, and the state: its set, items and units."""
    parse = Parse(file, **rooms)
    answer, state, taken = library.run(parse.file, parse.lent.state(), parse.lent, tokens)
    return answer, taken, parse.finished()[1], tuple(state)


def numbers_of_a():
    one = Parse(A)
    expect("A 0", (one.tokens([0]), one.finished(), one.items(), one.lent.set.value), ([0], (0, True, 1), [(0, 1, 1), (0, 0, 1)], 1))
    expect("A 0 1", ran(A, [0, 1]), (0, 2, False, (2, 3, 4)))
    expect("A 0 1 0", ran(A, [0, 1, 0]), (0, 3, True, (3, 6, 13)))
    expect("A 1", ran(A, [1]), (6, 0, False, (0, 0, 0)))
    expect("A 0 0", ran(A, [0, 0]), (6, 1, True, (1, 2, 3)))
    expect("A, token 2", ran(A, [2]), (5, 0, False, (0, 0, 0)))
    expect("A 0, I = 2", ran(A, [0], items=2), (7, 0, False, (0, 0, 0)))
    expect("A 0, I = 3", ran(A, [0], items=3), (0, 1, True, (1, 2, 3)))


def numbers_of_b():
    expect("B 0 1 2, E = 3", ran(B, TRIPLE, sets=3), (0, 3, True, (2, 3, 11)))
    expect("B 0 1 2 0, E = 3", ran(B, TRIPLE + [0], sets=3), (9, 3, True, (2, 3, 11)))
    expect("B, 400 triples, E = 5", ran(B, TRIPLE * 400, sets=5, units=4799), (0, 1200, True, (2, 3, 4799)))


def numbers_of_nodes():
    for position, node, units in [
        (0, [SUM, 31, 255, 0, 0], [0x1FFF]),
        (0, [SUM, 32, 7, 0, 0], [0xE000, 0x0020, 0x0007, 0x0000]),
        (40, [PRODUCT, 9, 9, 0, 0], [0x3F09]),
        (40, [PRODUCT, 9, 8, 0, 0], [0x4020, 0x0009]),
        (40, [PRODUCT, 9, 20, 1, 35], [0x6514, 0x0009]),
        (0, [NULLING_LEAF, 4096, 0, 0, 0], [0xA001, 0x0000, 0x1000, 0x0000]),
    ]:
        written_and_read(position, node, units)


def written_and_read(position, node, units):
    behind = position + len(units)
    store = [0xABCD] * 50
    expect(f"{node} at {position}", library.node_write(store, position, node),
           (0, behind, AS_IT_WAS, store[:position] + units + store[behind:]))
    expect(f"{node} read back", library.node_read(store[:position] + units, position), (0, node, behind, AS_IT_WAS))


def reset_clears_the_rows():
    parse = Parse(B)
    expect("B 0 1 2", parse.tokens(TRIPLE), [0, 0, 0])
    parse.start()
    expect("B 0 1 2, a start, 0 1 0", parse.tokens([0, 1, 0]), [0, 0, 6])


def wide_values_read_back():
    written_and_read(0, [SUM, 8191, 7, 0, 0], [0xE000, 0x1FFF, 0x0007, 0x0000])
    written_and_read(0, [NULLING_LEAF, 8192, 0, 0, 0], [0xA001, 0x0000, 0x2000, 0x0000])


def set_number_is_no_token_count():
    expect("B 0 1 2: three tokens, set 2", ran(B, TRIPLE), (0, 3, True, (2, 3, 11)))


def distance_above_the_position():
    for units in ([0x2100], [0x4001, 0], [0x6001, 0], [0x6100, 0]):
        expect(f"{units} at 0", library.node_read(units, 0), (12, [AS_IT_WAS] * 5, AS_IT_WAS, 0))


def no_item_twice():
    """Sorting removes nothing: equal rules are kept away by the check, equal sums by their order."""
    twice = model.make_file(6, 2, [(4, 2, 5), (2, 2, 3), (2, 0, None), (2, 0, None), (3, 1, 2)])
    expect("a rule twice", library.check(library.File(twice)), 2)
    ambiguous = model.make_file(4, 1, [(2, 1, 3), (1, 1, 1), (1, 0, None)])  # S ::= S S | 0
    parse = Parse(ambiguous, items=400, sets=16, queue=200, units=2000)
    expect("S ::= S S | 0, ten tokens", parse.tokens([0] * 10), [0] * 10)
    for number, items in enumerate(parse.sets()):
        expect(f"no item twice in set {number}", len({item[:2] for item in items}), len(items))


def main():
    for part in (numbers_of_a, numbers_of_b, numbers_of_nodes, reset_clears_the_rows, wide_values_read_back, set_number_is_no_token_count,
                 distance_above_the_position, no_item_twice):
        part()
    return 0 if passed() else 1


if __name__ == "__main__":
    sys.exit(main())
