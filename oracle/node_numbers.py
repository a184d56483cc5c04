#!/usr/bin/env python3
"""The inputs of the readings of C-15 and C-16 (docs/DECISIONS.md, 15.1 to 15.8, 16.1 to 16.6), row by row, on the built library. What is
wanted is written out by hand. What the Rust writes for the nodes that are refused here (15.9) is in compare.py, D10.
"""

import sys

import library
from by_hand import AS_IT_WAS, expect, passed

SUM, PRODUCT, NULLING_LEAF, EVALUATED = range(4)
FILLER, ALL_ONES, ABOVE_ALL = 0xFFFF, 0xFFFFFFFF, 0x100000000


def alone(action, left):
    return [PRODUCT, action, left, 0, 0]


def pair(action, left, right):
    return [PRODUCT, action, left, 1, right]


def refused(reading, p, node, number=10, size=64):
    """A write that is refused leaves the store and `behind`, and tells the position asked for."""
    store = [0xABCD] * size
    expect(f"{reading}: {node} at {p}", library.node_write(store, p, node), (number, AS_IT_WAS, p, store))


def written(reading, p, node, units):
    store, behind = [FILLER] * (p + 6), p + len(units)
    after = store[:p] + units + store[behind:]
    expect(f"{reading}: {node} at {p}", library.node_write(store, p, node), (0, behind, AS_IT_WAS, after))
    expect(f"{reading}: {node} read back at {p}", library.node_read(after, p), (0, node, behind, AS_IT_WAS))


def no_node(reading, units, unit, p=0):
    """A 12 tells the unit at which the fault was seen, and leaves the node and `behind`."""
    expect(f"{reading}: {units} at {p}", library.node_read(units, p), (12, [AS_IT_WAS] * 5, AS_IT_WAS, unit))


def every_factor_lies_before():
    for node in [alone(9, 40), alone(9, 41), pair(9, 40, 39), pair(9, 39, 40), pair(9, 39, 41), pair(9, 41, 39)]:
        refused("15.1", 40, node)
    for action in [300, 65536]:
        refused("15.1", 40, alone(action, 40))
        refused("15.1", 40, pair(action, 39, 40))
    written("15.1", 40, alone(9, 39), [0x2109])
    written("15.1", 40, pair(9, 39, 39), [0x6101, 0x0009])


def in_every_form():
    no_node("15.2", [FILLER, 0x4000, 0x0100], 1)
    no_node("15.2", [FILLER, 0xC001, 0x0000, 0x0001, 0x0000, 0xFFFF, 0xFFFF], 1)
    no_node("15.2", [FILLER, 0xC001, 0x0000, 0x0000, 0x0000, 0x0001, 0x0000], 1)
    for action in [0x00, 0x09, 0xFF]:
        no_node("15.2", [FILLER, 0x2000 + action], 1)
    for distances in [0x00, 0x01, 0x1F, 0xFF]:
        no_node("15.2, right distance 0", [FILLER] * 300 + [0x6000 + distances, 0x0009], 300)
    for distance in range(32):
        no_node("15.2, left distance 0", [FILLER] * 300 + [0x6000 + distance * 256, 0x0009], 300)
    for units, node in [
        ([0x2109], alone(9, 0)),
        ([0x4001, 0x0100], alone(0x100, 0)),
        ([0x6101, 0x0009], pair(9, 0, 0)),
        ([0xC001, 0x0000, 0x0000, 0x0000, 0xFFFF, 0xFFFF], alone(65536, 0)),
        ([0xC001, 0x0000, 0x0000, 0x0000, 0x0000, 0x0000], pair(65536, 0, 0)),
    ]:
        expect(f"15.2: {units} behind a filler", library.node_read([FILLER] + units, 0), (0, node, 1 + len(units), AS_IT_WAS))


def bounds_and_order_of_the_rows_stay():
    for p, node, units in [
        (40, alone(9, 9), [0x3F09]),
        (40, alone(9, 8), [0x4020, 0x0009]),
        (40, pair(9, 20, 35), [0x6514, 0x0009]),
        (9000, alone(9, 809), [0x5FFF, 0x0009]),
        (9000, alone(9, 808), [0xC000, 0x0009, 0x0328, 0x0000, 0xFFFF, 0xFFFF]),
        (9000, pair(9, 8745, 8969), [0x7FFF, 0x0009]),
        (9000, pair(9, 8744, 8969), [0xC000, 0x0009, 0x2228, 0x0000, 0x2309, 0x0000]),
        (9000, pair(9, 8745, 8968), [0xC000, 0x0009, 0x2229, 0x0000, 0x2308, 0x0000]),
    ]:
        written("15.3", p, node, units)


def at_the_first_positions():
    for node in [alone(9, 0), alone(9, 5), pair(9, 0, 0), alone(65536, 0)]:
        refused("15.4", 0, node)
    written("15.4", 1, alone(9, 0), [0x2109])
    refused("15.4", 1, alone(9, 1))
    refused("15.4", 1, pair(9, 0, 1))


def factors_of_all_ones():
    for p in [40, ALL_ONES]:
        refused("15.5", p, alone(9, ALL_ONES))
    refused("15.5", ABOVE_ALL, alone(9, ALL_ONES), 11)
    for p in [40, ALL_ONES, ABOVE_ALL]:
        refused("15.6", p, pair(9, 0, ALL_ONES))
    refused("15.6", ABOVE_ALL, pair(9, 0, ALL_ONES - 1), 11)


def unfit_comes_first():
    refused("15.7", 99, alone(9, 99))
    refused("15.7", 99, alone(9, 98), 11)


def before_is_of_positions_alone():
    written("15.8", 1, alone(9, 0), [0x2109])
    expect("15.8: a walk meets it behind a filler", library.node_walk([FILLER, 0x2109], 0), (0, 1, 2, AS_IT_WAS))


def kinds_of_fault():
    for kind, units, unit in [
        ("no form", [0xA002, 0x0000, 0x1000, 0x0000], 0),
        ("no form", [0xBFFF, 0x0000, 0x1000, 0x0000], 0),
        ("no form", [0xF000, 0x0000, 0x0000, 0x0000], 0),
        ("no form", [0xFFFE, 0x0000, 0x0000, 0x0000], 0),
        ("cut off", [FILLER, 0x4001], 1),
        ("cut off", [0xA000, 0x0000, 0x1000], 0),
        ("cut off", [FILLER, 0xC001, 0x0000, 0x0000, 0x0000, 0xFFFF], 1),
        ("distance 0", [FILLER, 0x2009], 1),
        ("distance above the position", [0x2109], 0),
        ("distance above the position", [FILLER, 0x4002, 0x0100], 1),
        ("longer", [0xE000, 0x001F, 0x00FF, 0x0000], 0),
        ("longer", [FILLER, 0x4001, 0x00FF], 1),
        ("longer", [FILLER, 0xC000, 0xFFFF, 0x0000, 0x0000, 0xFFFF, 0xFFFF], 1),
        ("longer", [0xA001, 0x0000, 0x0FFF, 0x0000], 0),
        ("not zero", [0xA000, 0x0001, 0x1000, 0x0000], 1),
        ("not zero", [0xA001, 0x8000, 0x0000, 0x0001], 1),
    ]:
        no_node(f"16.1, {kind}", units, unit)
    # Unit 32,768 cuts off as the end of the store does, and what stands past it says nothing.
    no_node("16.1, past the usable units", [FILLER] * 32765 + [0xA000, 0x0000, 0x1000, 0x0000], 32765, 32765)
    no_node("16.1, up to the last usable unit", [FILLER] * 32764 + [0xA000, 0x0001, 0x1000, 0x0000, 0x0000], 32765, 32764)


def the_lowest_of_several():
    no_node("16.2, longer and not zero", [0xA000, 0x0001, 0x0FFF, 0x0000], 0)
    no_node("16.2, cut off and not zero", [0xA000, 0x0001], 0)
    no_node("16.2, cut off and not zero", [0xA001, 0x0001, 0x1000], 0)
    no_node("16.2, no form and not zero", [0xA002, 0x0001, 0x1000, 0x0000], 0)


def long_factors():
    no_node("16.3", [FILLER, 0xC001, 0x0000, 0x0001, 0x0000, 0xFFFF, 0xFFFF], 1)
    no_node("16.3", [FILLER, 0xC001, 0x0000, 0x0000, 0x0000, 0x0001, 0x0000], 1)


def behind_fillers():
    no_node("16.4", [FILLER, 0xF000], 1)
    no_node("16.4", [FILLER] * 7 + [0xA000, 0x0001, 0x1000, 0x0000], 8, 3)
    no_node("16.4, a filler inside a node is a unit", [0xA001, FILLER, 0x0000, 0x0001], 1)


def walks():
    for units, p, told in [
        ([0x0000, FILLER, 0xA000, 0x0001, 0x1000, 0x0000], 0, (12, 1, 1, 3)),
        ([0x0000, FILLER, 0xF000], 0, (12, 1, 1, 2)),
        ([FILLER, 0xF000], 0, (12, 0, 0, 1)),
        ([0x0000, FILLER], 0, (0, 1, 1, AS_IT_WAS)),
        ([], 5, (0, 0, 5, AS_IT_WAS)),
    ]:
        expect(f"16.5: {units} from {p}", library.node_walk(units, p), told)


def the_position_asked_for():
    refused("16.6", 99, alone(9, 98), 11)
    refused("16.6", 99, alone(9, 99))
    refused("16.6", 3, [SUM, 2**28, 0, 0, 0])
    refused("16.6", 2**64 - 1, [EVALUATED, 0, 0, 0, 0], 11)
    refused("16.6, a kind from 4 on", 7, [4, 0, 0, 0, 0])
    expect("16.6: the end", library.node_read([FILLER], 0), (0, [4, 0, 0, 0, 0], AS_IT_WAS, AS_IT_WAS))


def main():
    for part in (every_factor_lies_before, in_every_form, bounds_and_order_of_the_rows_stay, at_the_first_positions, factors_of_all_ones,
                 unfit_comes_first, before_is_of_positions_alone, kinds_of_fault, the_lowest_of_several, long_factors, behind_fillers, walks,
                 the_position_asked_for):
        part()
    return 0 if passed() else 1


if __name__ == "__main__":
    sys.exit(main())
