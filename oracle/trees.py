#!/usr/bin/env python3
"""The library's trees beside the rules alone, beside the Rust's own forest, and on any store beside forest_model.py.

    trees.py SEED ROUNDS

ROUNDS times some random grammars and stores, from SEED. Prints what was compared. Fails at the first difference, and where something was compared
less often than LEAST says for a round.
"""

import sys
from itertools import product

import forest_model as forest
import forests
import generate
import library
import node_model
import rounds
import sentences
import streams
from rounds import in_hand, met, same
from streams import NO_NODE
from tree_numbers import Store

# Sentences with more trees than this are left out of the comparison tree by tree.
MOST_TREES = 60


class Parse(sentences.Library):
    """A parse on the library that reads tokens and positions, and its forest."""

    def kinds(self, position):
        answer, self.state = library.kinds(self.file, self.state, self.lent, position)
        return answer

    def forest(self):
        """The used units and the finished handle, or None."""
        answer, yes, handle = library.finished(self.file, self.state, self.lent)
        same("finished", (answer, handle == NO_NODE), (0, not yes))
        return (self.units(), handle) if yes else None

    def units(self, more=0):
        """The used units, and so many behind them."""
        return self.lent.parts[4][0][:self.state.used + more]


def listed(store, handle):
    """All trees, one call each."""
    answer, count = library.count(store, handle)
    same("counted", answer, 0)
    same("24 behind the last tree", library.tell(store, handle, count, [7])[:2], (24, 0))
    trees = []
    for k in range(count):
        answer, words, _, place = library.tell(store, handle, k, [7] * len(store))
        same("told", answer, 0)
        trees.append(tuple(place[:words]))
    return trees


# ------------------------------------------------------------------------------------------------ Beside the rules alone

def same_as_derived(grammar, positions, parse):
    """The trees of a finished parse beside the derivations of each word that has one kind of each position."""
    derived, found = [forest.Derivations(grammar, word) for word in product(*positions)], parse.forest()
    counts = [one.count() for one in derived]
    wanted = sum(counts)
    same("finished exactly where there is a derivation", found is not None, wanted > 0)
    if found is None:
        met["not finished"] += 1
        return
    same("count", library.count(*found), (0, wanted))
    met["finished"] += 1
    met["finished with several trees"] += wanted > 1
    met["finished by several words"] += sum(map(bool, counts)) > 1
    met["finished behind a set that was dropped"] += parse.state.set_number < len(positions)
    if wanted > MOST_TREES:
        met["finished of which only the number is compared"] += 1
        return
    trees = listed(*found)
    same("each once", len(set(trees)), wanted)
    same("exactly the derivations", sorted(trees), sorted(tree for one in derived for tree in one.listed()))
    same("in the order of the store", trees, list(forest.trees_of(*found)))
    for one, other in zip(trees, trees[1:]):
        forests.in_summand_order(grammar, one, other)
    met["trees beside the rules"] += wanted


def some_positions(rng, tokens):
    """Each token alone, in some order; and half the time several kinds before."""
    one = [[token] for token in rng.sample(range(tokens), tokens)]
    return one if rng.random() < 0.5 else [sorted(rng.sample(range(tokens), rng.randint(1, tokens))), *one]


def beside_the_rules(rng):
    """A way through each of many small grammars, position by position."""
    for _ in range(400):
        file, grammar = generate.small_grammar(rng)
        parse, positions = Parse(file), []
        while len(positions) < {1: 8, 2: 7, 3: 6}[grammar.tokens]:
            in_hand[:] = [file.hex(), positions]
            taken = next((kinds for kinds in some_positions(rng, grammar.tokens) if parse.kinds(kinds) == 0), None)
            if taken is None:
                break
            positions.append(taken)
            same_as_derived(grammar, positions, parse)
        met["grammars beside the rules"] += 1


# ------------------------------------------------------------------------------------------- Beside the Rust's own forest

def beside_the_rust(rng):
    cases = forests.some_cases(rng, False)
    for case, (grown, _) in zip(cases, streams.ask_bocage(cases)):
        in_hand[:] = [case.file.hex(), case.tokens]
        parse = Parse(case.file)
        for token, rust in zip(case.tokens, grown):
            same("answer", parse.token(token), rust.number)
            found = parse.forest() if rust.number == 0 else None
            if found is None:
                continue
            same("the Rust has finished too", rust.finished != NO_NODE, True)
            answer, count = library.count(*found)
            if answer == 0 and count <= MOST_TREES:
                trees, theirs = listed(*found), list(forests.trees_below(rust.below, rust.finished))
                same("the Rust's trees, each once", (sorted(trees), len(set(trees))), (sorted(theirs), len(theirs)))
                met["trees beside the Rust"] += count


# ------------------------------------------------------------------------------------------------------ Any store at all

def any_forest(rng):
    """Sums with Products behind them, most of them sound: with fillers between, factors anywhere before, Products too few or too many."""
    store = Store()
    heads = [store.write("Evaluated", rng.randrange(5))]
    wrong = rng.choice([0, 0, 0.02, 0.1])

    def factor():
        return rng.choice(heads[-6:]) if rng.random() >= wrong else rng.randrange(len(store))

    for _ in range(rng.choice([0, 0, 0, 0, 0, 0, 0, 30, 64, 70])):  # each with twice the trees of the one before
        heads.append(store.sum_of(*((action, heads[-1], None) for action in (1, 2))))
    for _ in range(rng.randint(1, 12)):
        if rng.random() < 0.3:
            heads.append(store.write(*rng.choice([("Evaluated", rng.choice([3, 5000]))] * 9 + [("NullingLeaf", 1)])))
            continue
        count = rng.choice([0, 1, 1, 2, 2, 3, 40])
        head = store.write("Sum", count, rng.choice([1, 300]))
        for _ in range(max(0, count + (rng.choice([-1, 1]) if rng.random() < wrong else 0))):
            store += [node_model.FILLER] * rng.choice([0, 0, 0, 0, 1, 3])
            store.write("Product", rng.choice([2, 300, 1 << 20]), factor(), rng.choice([None, factor()]))
        heads.append(head)
    if rng.random() < 0.3:  # some units changed
        for _ in range(rng.randint(1, 3)):
            store[rng.randrange(len(store))] = rng.choice([0xFFFF, 0x8000, 0x0002, 0x2101, rng.getrandbits(16)])
    return store, heads


def a_parse(rng):
    """The store of a parse, as it is or with a few units changed, and its finished handle where it has one."""
    case = generate.reached_case(rng, generate.small_grammar, 6, 140)
    parse = Parse(case.file)
    handles = []
    for token in case.tokens:
        parse.token(token)
        found = parse.forest()
        handles += [found[1]] if found else []
    store = parse.units(3)
    for _ in range(rng.choice([0, 0, 1, 2])):
        store[rng.randrange(len(store))] = rng.choice([0xFFFF, 0x8000, 0x0102, rng.getrandbits(16)])
    return store, handles or [0]


def any_units(rng):
    heads = [0x0002, 0x0102, 0x0202, 0x2101, 0x2202, 0x2303, 0x4001, 0x6101, 0x6201, 0x8000, 0x8001, 0x9000, 0xA000, 0xC000, 0xE000, 0xFFFF, 0, 1]
    store = [rng.choice(heads) if rng.random() < 0.9 else rng.getrandbits(16) for _ in range(rng.randint(0, 14))]
    return store, [rng.randrange(len(store) + 2)]


def same_as_model(rng, store, handle):
    in_hand[:] = [[f"{unit:04X}" for unit in store], handle]
    wanted = forest.count(store, handle)
    same("count", library.count(store, handle), wanted)
    met[f"count {wanted[0]}"] += 1
    count = {0: wanted[1], 12: 0, 23: 1 << 64}[wanted[0]]
    numbers = {0, count - 1, count, rng.randrange(1 << 64)}
    for k in sorted(number for number in numbers if 0 <= number < 1 << 64):
        needed = forest.length(store, handle, k) if k < count else 3
        room = rng.choice([0, needed - 1, needed, needed + 2]) if needed < 5000 else rng.choice([0, 20])
        place = [rng.getrandbits(32) for _ in range(room)]
        told = forest.tell(store, handle, k, place)
        same(f"tree {k} into {room} words", library.tell(store, handle, k, place), told)
        met[f"tree {told[0]}"] += 1


def beside_the_model(rng):
    for maker, times in [(any_forest, 700), (a_parse, 150), (any_units, 700)]:
        for _ in range(times):
            store, handles = maker(rng)
            for handle in {handles[-1], rng.choice(handles), rng.randrange(len(store) + 2)}:
                same_as_model(rng, list(store), handle)
            met[f"stores of {maker.__name__}"] += 1


# ------------------------------------------------------------------------------------------------------------- Runs

# What one round must at least meet.
LEAST = {
    "grammars beside the rules": 400, "finished": 800, "finished with several trees": 300, "finished by several words": 100,
    "finished behind a set that was dropped": 100, "trees beside the rules": 5000, "not finished": 200,
    "neighbours that part by a rule": 2000, "neighbours that part by a split": 500, "trees beside the Rust": 500,
    "count 0": 800, "count 12": 1000, "count 23": 20, "tree 0": 500, "tree 12": 2000, "tree 13": 500, "tree 24": 1000,
}


if __name__ == "__main__":
    sys.exit(rounds.run((beside_the_rules, beside_the_rust, beside_the_model), LEAST))
