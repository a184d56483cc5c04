#!/usr/bin/env python3
"""The inputs of the readings of C-20, row by row, on the built library and on forest_model.py. What is wanted is written out by hand.

Each row is named by its reading. A is 01's grammar, K is S ::= 0 | 1; a position is the list of its kinds; units are hexadecimal.
"""

import sys
import time
from math import comb

import expecting
import forest_model as forest
import library
import model
import node_model
from by_hand import Parse
from expecting import passed
from forest_numbers import K, units
from model import GRAMMAR_A as A

ALL_ONES = (1 << 64) - 1
LEFT = model.make_file(4, 1, [(2, 1, 3), (1, 1, 0), (1, 0, None)])  # S ::= S 0 | 0
# L ::= L X | X, X ::= Y | Z, Y ::= 0, Z ::= 0
DOUBLING = model.make_file(7, 1, [(5, 1, 6), (1, 1, 2), (1, 2, None), (2, 3, None), (2, 4, None), (3, 0, None), (4, 0, None)])

# Whose calls the rows are of, by name.
ENGINES = {"library": library, "model": forest}
engine, engine_name = None, None


def expect(what, got, wanted):
    expecting.expect(f"{engine_name}, {what}", got, wanted)


def finished(file, read, *rooms):
    """The store and the finished handle behind these tokens and lists of kinds."""
    parse = Parse(file, *rooms)
    expect("taken", {parse.token(here) if isinstance(here, int) else parse.kinds(here) for here in read}, {0})
    return parse.lent.words()[4], parse.finished()[2]


def listed(store, handle, most=200, room=200):
    """All trees, one call each, up to the 24 behind the last."""
    found = []
    for k in range(most):
        answer, count, _, place = engine.tell(store, handle, k, [7] * room)
        if answer:
            expect("24 behind the last tree", (answer, count, set(place)), (24, 0, {7}))
            return found
        expect("words behind a tree stay", set(place[count:]) <= {7}, True)
        found.append(tuple(place[:count]))
    return found


def numbers(count):
    """Numbers with pluses between them."""
    return [0, 1] * (count - 1) + [0]


# ----------------------------------------------------------------------------------------------------------- Readings

def of_a_parse():
    expect("20.1, 20.2 A 0", listed(*finished(A, [0])), [(2, 0)])
    expect("20.2 A 0 1 0", listed(*finished(A, numbers(2))), [(1, 2, 0, 3, 1, 2, 0)])
    store, handle = finished(K, [[0, 1]])
    expect("20.2 K [0 1]", (store[:5], handle, listed(store, handle)), (units("8000 8001 0202 2202 2401"), 2, [(2, 1), (1, 0)]))
    expect("20.11 A, three numbers", listed(*finished(A, numbers(3))), [
        (1, 1, 2, 0, 3, 1, 2, 0, 3, 1, 2, 0),
        (1, 2, 0, 3, 1, 1, 2, 0, 3, 1, 2, 0)])
    for count, ways in [(1, 1), (2, 1), (3, 2), (4, 5), (5, 14), (6, 42), (7, 132)]:
        store, handle = finished(A, numbers(count), 200, 20, 100, 800)
        found = listed(store, handle)
        expect(f"02 A, {count} numbers", (engine.count(store, handle), len(found), len(set(found))), ((0, ways), ways, ways))
        expect(f"20.8 A, {count} numbers: no tree has more words than units are used", max(map(len, found)) <= len(store), True)
    store, handle = finished(A, numbers(30), 4096, 1024, 1024, 32768)
    expect("02 A, 30 numbers", engine.count(store, handle), (0, comb(58, 29) // 30))
    store, handle = finished(LEFT, [0] * 150, 40, 8, 8, 700)  # of 150 sets all but the last few are dropped on the way
    expect("20.8 S ::= S 0 | 0, 150 tokens", (engine.count(store, handle), listed(store, handle, 2, 400)), ((0, 1), [(*[1] * 149, 2, *[0] * 150)]))


def of_a_store():
    for name, store, handle, wanted, trees in [
            ("20.3 a filler behind the Sum", "8000 0102 FFFF 2302", 1, (0, 1), [(2, 0)]),
            ("20.4 a handle at a filler", "8000 FFFF 0102 2302", 1, (12, 1), None),
            ("20.4 a factor at a filler", "FFFF 8000 0102 2302", 2, (12, 2), None),
            ("20.4 a handle inside a Product", "8000 4001 0105 2301", 2, (0, 1), [(1, 0)]),
            ("20.5 Sum 0", "8000 0002", 1, (0, 0), []),
            ("20.5 a factor between the Sum and its Product", "8000 0202 2202 2102", 1, (12, 1), None),
            ("20.5 a factor at a NullingLeaf", "9000 0102 2202", 1, (12, 1), None),
            ("20.5 a Sum without its Product", "8000 0102", 1, (12, 1), None),
            ("20.5 a Sum behind a Sum", "8000 0102 0002", 1, (12, 1), None),
            ("20.6 two faulty Sums", "9000 0102 2202 0202 2302 2505", 3, (12, 1), None),
            ("20.6 a faulty Sum that is not below", "8000 0502 0102 2302", 2, (0, 1), [(2, 0)]),
            ("20.6 a handle at a leaf", "8000 0102 2202", 0, (12, 0), None),
            ("20.6 a handle at a Product", "8000 0102 2202", 2, (12, 2), None),
            ("20.6 past the store", "8000", 7, (12, 7), None),
            ("20.10 the greatest handle", "8000", ALL_ONES, (12, ALL_ONES), None)]:
        expect(name, engine.count(units(store), handle), wanted)
        if trees is None:
            expect(f"{name}: tree", engine.tell(units(store), handle, 0, [7, 7]), (12, 0, wanted[1], [7, 7]))
        else:
            expect(f"{name}: trees", listed(units(store), handle), trees)
    expect("20.10 units past 32,768 never decide", engine.count([0xFFFF] * 32767 + [0x0002, 0x0002], 32768), (12, 32768))


def order_of_refusals():
    one, faulty = units("8000 0102 2202"), units("9000 0102 2202")
    expect("20.7 12 before 24", engine.tell(faulty, 1, 9, []), (12, 0, 1, []))
    expect("20.7 24 before 13", engine.tell(one, 1, 9, []), (24, 0, None, []))
    expect("20.7 24 at the count", engine.tell(one, 1, 1, [7, 7]), (24, 0, None, [7, 7]))
    expect("20.7 13", engine.tell(one, 1, 0, []), (13, 2, None, []))
    expect("20.7 13, a word too few", engine.tell(one, 1, 0, [7]), (13, 2, None, [7]))
    expect("20.7 0", engine.tell(one, 1, 0, [7, 7, 7]), (0, 2, None, [2, 0, 7]))
    expect("20.7 Sum 0", engine.tell(units("8000 0002"), 1, 0, []), (24, 0, None, []))


# ------------------------------------------------------------------------------------------------------------ Numbers

class Store(list):
    """Units that nodes are written to, one behind another."""

    def write(self, *node):
        handle = len(self)
        self += node_model.units(handle, node)
        return handle

    def sum_of(self, *products):
        handle = self.write("Sum", len(products), 0)
        for product in products:
            self.write("Product", *product)
        return handle


def powers():
    """A store with Sums of 2, 4, .. 2^63 trees, and the handles: the first is of one tree, a leaf."""
    store = Store()
    handles = [store.write("Evaluated", 0)]
    handles.append(store.sum_of((1, handles[0], None), (2, handles[0], None)))
    while len(handles) < 64:
        handles.append(store.sum_of((3, handles[1], handles[-1])))
    return store, handles


def large_numbers():
    for tokens, wanted in [(63, (0, 1 << 63)), (64, (23, None))]:
        store, handle = finished(DOUBLING, [0] * tokens, 400, 100, 50, 4000)
        expect(f"20.9 doubling, {tokens} tokens", engine.count(store, handle), wanted)
    place = [7] * 300
    expect("20.7 past 64 bits the last number is a tree", engine.tell(store, handle, ALL_ONES, place)[:2], (0, 256))
    store, handles = powers()
    most = store.sum_of(*((4, handle, None) for handle in handles))
    expect("20.9 2^64 - 1 trees", engine.count(store, most), (0, ALL_ONES))
    expect("20.9 2^64 - 1 trees: the last", engine.tell(store, most, ALL_ONES - 1, place)[:2], (0, 1 + 2 + 3 * 62))
    expect("20.9 2^64 - 1 trees: none behind it", engine.tell(store, most, ALL_ONES, place), (24, 0, None, place))
    over = store.sum_of((5, most, None), (6, handles[0], None))
    expect("20.9 one more", engine.count(store, over), (23, None))
    expect("20.9 one more: the first of the second Product has the number 2^64 - 1", engine.tell(store, over, ALL_ONES, [7] * 3), (0, 2, None, [6, 0, 7]))
    expect("20.9 2^63 times 2", engine.count(store, store.sum_of((7, handles[63], handles[1]))), (23, None))
    nothing = store.write("Sum", 0, 0)
    expect("20.9 none times too many", engine.count(store, store.sum_of((8, nothing, over), (9, over, nothing), (3, handles[0], None))), (0, 1))
    faulty = store.sum_of((1, store.write("NullingLeaf", 0), None))
    expect("20.7 12 before 23", engine.count(store, store.sum_of((1, over, None), (2, faulty, None))), (12, faulty))


def shared():
    """Stores whose trees are many or long because Sums share what is below them: a call looks at each unit, not at each tree or word."""
    def chain(products, levels, bottom=("Evaluated", 0)):
        store = Store()
        handle = store.write(*bottom)
        for _ in range(levels):
            handle = store.sum_of(*((action, *[handle] * factors, *[None] * (2 - factors)) for action, factors in products))
        return store, handle

    levels = 10922 if engine is library else 300
    started = time.process_time()
    store, handle = chain([(1, 2)], levels)  # one tree of 2^(levels + 1) - 1 words
    expect("20.8 one tree of too many words", engine.count(store, handle), (0, 1))
    expect("20.8 its length", engine.tell(store, handle, 0, [7] * 50), (13, ALL_ONES, None, [7] * 50))
    store, handle = chain([(1, 1), (2, 1)], levels)
    expect("20.12 2^levels trees", engine.count(store, handle), (23, None))
    expect("20.12 its last but 2^levels - 2^64", engine.tell(store, handle, ALL_ONES, [7] * 20000)[:2], (0, levels + 1))
    store, handle = chain([(1, 2), (2, 2)], levels // 2, ("NullingLeaf", 0))
    expect("20.12 a fault at the bottom", engine.count(store, handle), (12, 1))
    for size in (14, 15):
        store, handle = chain([(1, 2)], size)
        words = 2 ** (size + 1) - 1
        expect(f"20.8 {words} words: needed", engine.tell(store, handle, 0, [])[:2], (13, words if size < 15 else ALL_ONES))
        answer, count, _, place = engine.tell(store, handle, 0, [7] * (words + 1))
        expect(f"20.8 {words} words: written where there is room", (answer, count, place.count(0), place[-1]), (0, words, 2**size, 7))
    expect("20.12 shared stores end at once", time.process_time() - started < 60, True)


def the_slowest_store():
    """Products of six units with a Sum inside each, which counts all the Products behind it: about 15 million reads."""
    store = Store([0x8000, 0x8000])
    while len(store) + 9 <= 32768:
        store += [0xC001, 0xE001, len(store) // 2, 0, 0xFFFF, 0xFFFF]
    handle = store.sum_of((1, store.write("Evaluated", 0), None))
    started = time.process_time()
    expect("20.12 the slowest store", engine.count(store, handle), (0, 1))
    return time.process_time() - started


def older_handles():
    parse = Parse(A, 100, 20, 50, 400)
    told = {}
    for token in numbers(6):
        expect("taken", parse.token(token), 0)
        store, (_, yes, handle) = parse.lent.words()[4], parse.finished()
        if yes:
            told[handle] = listed(store, handle)
        for older, trees in told.items():
            expect("20.13 an older handle", listed(store, older), trees)
    expect("20.13 refused", parse.token(0), 6)
    expect("20.13 older handles after a refusal", {older: listed(parse.lent.words()[4], older) for older in told}, told)
    parse.start()
    expect("20.13 a start empties the store", {engine.count(parse.lent.words()[4], older) for older in told}, {(12, older) for older in told})


def main():
    global engine, engine_name
    for engine_name, engine in ENGINES.items():
        for part in (of_a_parse, of_a_store, order_of_refusals, large_numbers, shared, older_handles):
            part()
    engine_name, engine = "library", library
    print(f"the slowest store: {the_slowest_store():.2f} s")
    return 0 if passed() else 1


if __name__ == "__main__":
    sys.exit(main())
