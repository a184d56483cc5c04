#!/usr/bin/env python3
"""The inputs of the readings of C-17, row by row, on the built library and on forest_model.py. What is wanted is written out by hand.

Each row is named by its reading. A and B are 01's grammars; units are hexadecimal.
"""

import sys

import expecting
import forest_model as forest
import library
import model
from expecting import passed
from forest_model import Buffers, FRESH, State
from model import GRAMMAR_A as A, GRAMMAR_B as B, RIGHT

ALL_ONES = 0xFFFFFFFF
LEFT = model.make_file(4, 1, [(2, 1, 3), (1, 1, 0), (1, 0, None)])  # S ::= S 0 | 0
DOUBLE = model.make_file(4, 1, [(2, 1, 3), (1, 1, 1), (1, 0, None)])  # S ::= S S | 0
K = model.make_file(5, 2, [(3, 2, 4), (2, 0, None), (2, 1, None)])  # S ::= 0 | 1
PAIR = model.make_file(5, 2, [(3, 2, 4), (2, 0, 1)])  # S ::= 0 1
# S ::= X | Y | .., forty of them, and each of these ::= 0
FORTY = model.make_file(44, 1, [(42, 1, 43)] + [(1, x, None) for x in range(2, 42)] + [(x, 0, None) for x in range(2, 42)])


# Whose calls the rows are of, by name.
ENGINES = {"library": library.OnBuffers(), "model": forest}
engine, engine_name = None, None


def expect(what, got, wanted):
    expecting.expect(f"{engine_name}, {what}", got, wanted)


def units(text):
    return [int(unit, 16) for unit in text.split()]


class Parse:
    """A started parse in words of the capacities I, E, Q and U."""

    def __init__(self, file, items=20, sets=8, queue=8, store=40):
        self.file, self.buffers = file, Buffers.spare(items, sets, queue, store)
        answer, self.state = engine.begin(file, FRESH, self.buffers)
        assert answer == 0

    def token(self, token):
        answer, self.state = engine.token(self.file, self.state, self.buffers, token)
        return answer

    def after(self, *tokens):
        for token in tokens:
            expect(f"token {token} of {tokens}", self.token(token), 0)
        return self

    def finished(self):
        return engine.finished(self.file, self.state, self.buffers)

    def used(self):
        return self.buffers.store[:self.state.used]

    def words(self):
        return {kind: words[:] for kind, words in vars(self.buffers).items()}

    def trees(self, most=100):
        return list(forest.trees(self.buffers.store, self.finished()[2], most))


def words_and_capacities():
    parse = Parse(A).after(0)
    expect("17.1 A 0: items", parse.buffers.items[:6], [0, 1, 1, 0, 0, 1])
    expect("17.1 A 0: state", parse.state, (1, 2, 3))
    expect("17.1 A 0: the set's part", engine.latest_set(A, parse.state, parse.buffers), (0, [0, 1, 1, 0, 0, 1]))
    short = Buffers([0] * 8, [], [], [0] * 3, [])
    expect("17.1 eight item words, three queue words", (short.item_room, short.queue_room), (2, 1))
    text = [0] * 32
    answer, count = engine.listing(A, parse.state, parse.buffers, text)
    expect("17.1 A 0: the listing", (answer, bytes(text[:count])), (0, b"2 ::= 2 * 3 @ 0\n4 ::= 2 * 5 @ 0\n"))
    records = [(0, 0, 0, 0, 0)] * 2
    expect("17.1 A 0: the records", (engine.latest_records(A, parse.state, parse.buffers, records), records),
           ((0, 2), [(1, 2, 2, 3, 0), (0, 4, 2, 5, 0)]))


def starts():
    words = [Buffers([7] * 9, [7] * 3, [7] * 16, [7] * 4, [7] * 5), Buffers([7] * 9, [7] * 3, [7] * 16, [7] * 4, [])]
    for lent in words:
        expect("17.2 a start", engine.begin(A, State(5, 5, 5), lent), (0, (0, 0, 0)))
        expect("17.2 its words", lent.items + lent.starts + lent.rows + lent.queue, [0] * 9 + [0] * 3 + [0x15] + [0] * 15 + [0] * 4)
    expect("17.2 its units", words[0].store, units("FFFF FFFF FFFF FFFF FFFF"))
    expect("17.2 no units: the token", engine.token(A, FRESH, words[1], 0), (14, (0, 0, 0)))
    zeros = Parse(A)
    zeros.buffers.store = [0] * 40
    expect("17.2 a store of zeros is not as a start leaves it", zeros.token(0), 4)
    no_sets = Buffers([7] * 9, [7], [7] * 16, [7] * 4, [7] * 5)
    before = no_sets.copy()
    expect("17.2 no sets", engine.begin(A, State(5, 5, 5), no_sets), (3, (5, 5, 5)))
    expect("17.2 no sets: words", vars(no_sets), vars(before))
    long = Buffers.spare(3, 2, 1, 0)
    long.store = [7] * 32770
    expect("17.2 32,770 units", (engine.begin(A, FRESH, long), long.store), ((0, (0, 0, 0)), [0xFFFF] * 32768 + [7, 7]))
    expect("17.2 32,770 units: the token", engine.token(A, FRESH, long, 0), (0, (1, 2, 3)))
    expect("17.2 32,770 units: after it", long.store, units("8000 0102 2202") + [0xFFFF] * 32765 + [7, 7])


def order_of_refusals():
    for room, wanted in [
            ((0, 0, 0, 1), 14), ((1, 0, 0, 1), 7), ((1, 1, 0, 1), 8), ((1, 1, 1, 1), 14), ((2, 3, 1, 1), 14), ((3, 1, 1, 1), 7),
            ((3, 3, 1, 1), 9), ((3, 3, 1, 2), 0)]:
        store, items, queue, sets = room
        parse = Parse(A, items, sets, queue, store)
        before = parse.words()
        expect(f"17.3 A, token 0, U I Q E {room}", parse.token(0), wanted)
        if wanted:
            expect(f"17.4 {wanted} leaves state and words", (parse.state, parse.words()), ((0, 0, 0), before))
            expect(f"17.4 {wanted} leaves spare units", parse.buffers.store, [0xFFFF] * store)
        else:
            expect("17.3 the units of 0", parse.buffers.store, units("8000 0102 2202"))
    expect("17.3 A, token 1, no units", Parse(A, store=0).token(1), 6)
    expect("17.3 A, token 2, no units", Parse(A, store=0).token(2), 5)
    for store in range(14):
        parse = Parse(A, store=store)
        expect(f"17.4 A 0 1 0 in {store} units", [parse.token(token) for token in (0, 1, 0)],
               [14, 6, 14] if store < 3 else [0, 14, 6] if store < 4 else [0, 0, 14] if store < 13 else [0, 0, 0])
        if 4 <= store < 13:
            expect(f"17.4 what is left of {store} units", parse.buffers.store, units("8000 0102 2202 8001") + [0xFFFF] * (store - 4))


def what_is_written():
    expect("17.5 A 0", Parse(A).after(0).used(), units("8000 0102 2202"))
    three = Parse(A).after(0, 1, 0)
    expect("17.5 A 0 1 0", three.used(), units("8000 0102 2202 8001 8000 0102 2202 0103 6305 0003 0102 640A 0001"))
    expect("17.5 A 0 1 0: finished", (three.state.used, three.finished()), (13, (0, True, 10)))
    forty = Parse(FORTY, items=100, queue=50, store=200).after(0)
    handle = forty.finished()[2]
    expect("17.5 forty unary rules for one left side", forty.used()[handle:handle + 4], units("E000 0028 0001 0000"))
    expect("17.5 forty unary rules: trees", [tree[0] for tree in forty.trees()], list(range(40, 0, -1)))
    chain = Parse(model.CHAIN).after(0)
    expect("17.5 a nonterminal from 256 on", chain.used(), units("8000 E000 0001 01FD 0000 25D2"))
    expect("17.15 A, three numbers: the summands", forest.summands(Parse(A).after(0, 1, 0, 1, 0).buffers.store, 26),
           (2, [(1, [10, 17]), (1, [1, 23])]))


def well_formed():
    def answer(state, store, handles=None, file=A, after=(0,)):
        """Of an empty run on a parse whose store, used units and items' handles are replaced."""
        parse = Parse(file).after(*after)
        parse.buffers.store = units(store)
        for place, handle in enumerate(handles or []):
            parse.buffers.items[3 * place + 2] = handle
        state = parse.state._replace(used=state)
        return engine.run(file, state, parse.buffers, [])[0]

    expect("17.7 cut off by the used units", answer(2, "8000 4001 FFFF", after=()), 4)
    expect("17.7 not cut off", answer(3, "8000 4001 FFFF", after=()), 0)
    expect("17.7 an item at a filler", answer(2, "FFFF 8000", [0, 1]), 4)
    expect("17.7 an item behind it", answer(2, "FFFF 8000", [1, 1]), 0)
    expect("17.7 a longer form where a shorter was due", answer(3, "8000 4001 0003", after=()), 4)
    expect("17.7 the node that the next one looks into", answer(3, "8000 4001 0103", [0, 1]), 0)
    expect("17.7 an item inside a node", answer(3, "8000 4001 0103", [0, 2]), 4)
    expect("17.7 an item past the used units", answer(2, "8000 8000 FFFF", [0, 2]), 4)
    expect("17.7 used past the units", answer(3, "8000 8000", [0, 1]), 4)
    expect("17.7 a spare unit", answer(2, "8000 8000 0000", [0, 1]), 4)
    expect("17.7 a 12 among the used units", answer(3, "8000 8000 F000", [0, 1]), 4)
    parse = Parse(A).after(0)
    parse.buffers.items[5] = 2
    expect("17.7 rule 0 with a Product: finished", parse.finished(), (0, True, 2))
    expect("17.7 rule 0 with a Product: count", forest.count(parse.buffers.store, 2), (12, 2))

    expect("17.8 fillers alone", answer(1, "FFFF", after=()), 0)
    filled = Parse(A).after(0)
    filled.state = filled.state._replace(used=4)
    expect("17.8 a filler among the used units", filled.finished(), (0, True, 1))
    expect("17.8 token 1", (filled.token(1), filled.used()), (0, units("8000 0102 2202 FFFF 8001")))


def finished():
    expect("17.9 A", Parse(A).finished(), (0, False, ALL_ONES))
    expect("17.9 A 0 1", Parse(A).after(0, 1).finished(), (0, False, ALL_ONES))
    expect("17.9 A 0 1 0", Parse(A).after(0, 1, 0).finished(), (0, True, 10))
    bad = Parse(A).after(0)
    bad.buffers.store[10] = 0
    expect("17.9 refused", bad.finished(), (4, False, ALL_ONES))


def figures():
    """At the largest capacities, and with 256 sets, as many as the driver lends. The model reads only those that it reads quickly."""
    for name, file, tokens, taken in [
            ("A", A, [0, 1] * 70, 60),
            ("S ::= 0 S | 0", RIGHT, [0] * 1100, 97),
            ("S ::= S S | 0", DOUBLE, [0] * 100, 31),
            ("B", B, [0, 1, 2] * 3000, 8192),
            ("S ::= S 0 | 0", LEFT, [0] * 9000, 8192)]:
        for sets in (model.MAX_SETS, model.DRIVER_SETS) if engine is not forest or taken < 100 else ():
            parse = Parse(file, model.MAX_ITEMS, sets, model.MAX_QUEUE, forest.USABLE)
            expect(f"17.14 {name}, {sets} sets", engine.run(file, parse.state, parse.buffers, tokens)[::2], (14, taken))
    triples = Parse(B, 7, 5, 1, 4799)
    answer, state, taken = engine.run(B, triples.state, triples.buffers, [0, 1, 2] * 400)
    expect("17.14 B, 400 triples, five sets, seven items, one queued", (answer, taken, state), (0, 1200, (2, 3, 4799)))
    for sentence in range(3):  # with a start between them, without end
        answer, state = engine.begin(B, triples.state, triples.buffers)
        expect(f"17.14 B, a start, sentence {sentence}", (answer, state, set(triples.buffers.store)), (0, (0, 0, 0), {0xFFFF}))
        expect(f"17.14 B, sentence {sentence} behind it", engine.run(B, state, triples.buffers, [0, 1, 2] * 400), (0, (2, 3, 4799), 1200))
    short = Parse(B, 7, 5, 1, 4798)
    expect("17.14 B, a unit less", engine.run(B, short.state, short.buffers, [0, 1, 2] * 400)[::2], (14, 1199))


def how_many_summands():
    """That all of a pair's entries are popped is asserted at every sum (Step.write_sum); here is a Sum that needs the number first: one summand
    more makes it four units long, and moves its Products."""
    for summands, head in [(31, "1F01"), (32, "E000 0020 0001 0000")]:
        rights = range(2, 2 + summands)
        file = model.make_file(summands + 4, 1, [(summands + 2, 1, summands + 3)] + [(1, x, None) for x in rights] + [(x, 0, None) for x in rights])
        parse = Parse(file, items=100, queue=50, store=200).after(0)
        handle = parse.finished()[2]
        expect(f"17.16 {summands} summands", parse.used()[handle:handle + len(units(head))], units(head))
        expect(f"17.16 {summands} summands: trees", len(parse.trees()), summands)


def forged(file, state, items, starts, rows, store):
    """Words that hold a forged state, with room."""
    buffers = Buffers.spare(20, 8, 8, 40)
    for words, content in [(buffers.items, items), (buffers.starts, starts), (buffers.store, store),
                           (buffers.rows, [word for row in rows for word in model.words_of(row)])]:
        words[:len(content)] = content
    parse = Parse(file)
    parse.state, parse.buffers = state, buffers
    return parse


def forged_rows():
    # S ::= 0 1 waits for 1 in set 1, and row 0 lacks S.
    lacks = forged(PAIR, State(1, 1, 1), [0, 1, 0], [0, 0, 1], [0, model.bit(1)], units("8000"))
    expect("17.17 row 0 lacks the left side", (lacks.token(1), lacks.state), (0, (2, 1, 5)))
    expect("17.17 its sum is written", lacks.used(), units("8000 8001 0102 6203 0001"))
    unused = forged(A, FRESH, [], [0, 0], [model.bit(0)], [])
    expect("17.17 a token that nothing uses", (unused.token(0), unused.state, unused.used()), (0, (1, 0, 1), units("8000")))


def main():
    global engine, engine_name
    for engine_name, engine in ENGINES.items():
        for part in (words_and_capacities, starts, order_of_refusals, what_is_written, well_formed, finished, figures, how_many_summands, forged_rows):
            part()
    return 0 if passed() else 1


if __name__ == "__main__":
    sys.exit(main())
