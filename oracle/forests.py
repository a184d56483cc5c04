#!/usr/bin/env python3
"""forest_model.py beside model.py, beside the Rust, and beside the rules alone.

    forests.py SEED ROUNDS

ROUNDS times some random grammars with their tokens, from SEED. Prints what was compared. Fails at the first difference, and where something was
compared less often than LEAST says for a round.
"""

import sys

import forest_model as forest
import forest_numbers
import generate
import model
import node_model
import rounds
import streams
from forest_model import Buffers
from rounds import in_hand, met, same
from streams import Case, NO_NODE

# Room for all that is read here.
ITEMS, SETS, QUEUE, UNITS = 600, 20, 400, 6000

# Trees are listed up to so many; of more only the number is compared.
MOST_TREES = 200


# ------------------------------------------------------------------------------------------------------------ Parses

def beginning(case, rng=None, items=ITEMS, sets=SETS, queue=QUEUE, units=UNITS):
    """The state and words at which a case begins. Without rng each item of a forged state has the leaf with its own number for a node."""
    in_hand[:] = [case.file.hex(), case.chart, case.tokens]
    if case.chart is not None:
        return generate.rooms_with_store(case.chart, rng, items, sets, queue, units)
    buffers = Buffers.spare(items, sets, queue, units)
    answer, state = forest.begin(case.file, forest.FRESH, buffers)
    same("start", answer, 0)
    return state, buffers


def some_cases(rng, forged):
    """From the start with fewer than 256 symbols; or also from forged states and with the most symbols."""
    cases = [generate.reached_case(rng, generate.small_grammar, rng.randint(3, 11), 140) for _ in range(50)]
    cases += [generate.reached_case(rng, generate.middle_grammar, 7, 200) for _ in range(5)]
    if forged:
        cases += [generate.forged_case(rng, generate.small_grammar, 4, 140) for _ in range(40)]
        cases.append(generate.reached_case(rng, generate.largest_grammar, 3, 400))
    return cases


# ---------------------------------------------------------------------------------------- Beside the model without it

def new_words_never_decide(rng):
    """Every answer but 14, every set, origin, rule, start and row are those of model.py, whatever the handles and the capacities are."""
    for case in some_cases(rng, True):
        grammar = model.check(case.file)[1]
        chart = case.chart or generate.start_chart(grammar)
        spare = dict(items=ITEMS, sets=SETS, queue=QUEUE, units=UNITS)
        if rng.random() < 0.5:  # little of one of them
            spare[rng.choice(list(spare))] = rng.randint(0, 12)
        rooms = [len(chart.items) + spare["items"], chart.set_number + 1 + spare["sets"], spare["queue"]]
        plain, words = generate.rooms(chart, *rooms)
        state, buffers = beginning(case, rng, *rooms, spare["units"])
        same("well formed", model.well_formed(grammar, state, buffers), True)
        for token in case.tokens + [rng.randrange(grammar.tokens)]:
            before, old = buffers.copy(), state
            answer, state, _ = forest.take(grammar, state, buffers, token)
            met[f"beside the model {answer}"] += 1
            if answer:
                same("refused: state and words", (state, vars(buffers)), (old, vars(before)))
            if answer == forest.FOREST_ROOM:
                break
            wanted, plain, _ = model.take(grammar, plain, words, token)
            same("answer and state", (answer, state[:2]), (wanted, plain))
            same("items", [tuple(buffers.item(place)) for place in range(rooms[0])], [words.item(place) for place in range(rooms[0])])
            same("starts and rows", (buffers.starts, buffers.rows), (words.starts, words.rows))
            if answer in (7, 8, 9):
                break
        same("well formed after", model.well_formed(grammar, state, buffers), True)
        met["forged states beside the model"] += case.chart is not None


# --------------------------------------------------------------------------------------------- Beside the recognizer

def nodes_from(store, first, behind):
    """The nodes that a position wrote, with their handles: its leaves, and the sums with their summands as (action, left, right or NO_NODE)."""
    leaves, sums, position = [], [], first
    while position < behind and forest.kind(store, position) == "Evaluated":
        leaves.append((position, forest.node_at(store, position)[0][1]))
        position = forest.node_at(store, position)[1]
    while position < behind:
        handle = position
        (kind, count, left_side), position = forest.node_at(store, position)
        same("a Sum is due", kind, "Sum")
        summands = []
        for _ in range(count):
            (kind, action, left, right), position = forest.node_at(store, position)
            same("a Product is due", kind, "Product")
            summands.append((action, left, NO_NODE if right is None else right))
        sums.append((left_side, handle, summands))
    same("the position's nodes end where the state says", position, behind)
    return leaves, sums


def beside_the_recognizer(rng):
    """The unchanged recognizer tells a forest the same leaves, sums and summands in the same order, and has the same nodes in its items. But it tells a leaf
    for each kind of a position, also for those that are passed over."""
    wide = [Case(model.CHAIN, None, False, [0, 208, 207]), Case(forest_numbers.FORTY, None, False, [0])]
    cases = some_cases(rng, True) + wide + [generate.position_case(rng, generate.small_grammar, forged) for forged in (True, False, False) * 10]
    for case, told in zip(cases, streams.ask_told(cases)):
        state, buffers = beginning(case)
        grammar = model.check(case.file)[1]
        handle_of = {place: place for place in range(state.item_count)}  # the Rust's number of a node, and our handle
        handle_of[NO_NODE] = NO_NODE
        for token, rust in zip(case.tokens, told):
            old, rows = state, [buffers.row(k) for k in range(state.set_number + 1)]
            kinds = [token] if isinstance(token, int) else token
            answer, state, popped = forest.take_position(grammar, state, buffers, kinds)
            same("answer", answer, rust.number)
            met[f"told {answer}"] += 1
            if answer:
                continue
            leaves, sums = nodes_from(buffers.store, old.used, state.used)
            used = [(leaf, kind) for leaf, kind in enumerate(kinds, rust.leaf + 1 - len(kinds)) if rows[-1] & model.bit(kind)]
            same("the leaves", [kind for _, kind in leaves], [kind for _, kind in used])
            handle_of.update((leaf, handle) for (leaf, _), (handle, _) in zip(used, leaves))
            met["told positions of several kinds used"] += len(used) > 1
            met["told positions with a kind passed over"] += len(used) < len(kinds)
            same("number of sums", len(sums), len(rust.sums))
            for (left_side, handle, summands), (origin, left, node, wanted), (popped_origin, _, _) in zip(sums, rust.sums, popped):
                same("the sum's origin and left side", (popped_origin, left_side), (origin, left))
                same("the sum's summands", summands, [(rule, handle_of[left], handle_of[right]) for rule, left, right in wanted])
                handle_of[node] = handle
                met["told sums"] += 1
                met["told sums of several"] += len(summands) > 1
                met["told sums that are wide"] += len(summands) >= 32 or left >= 256
                met["told sums that complete nothing"] += not rows[origin] & model.bit(left)
            same("the items' nodes", [buffers.item(place).handle for place in range(state.item_count)], [handle_of[node] for node in rust.nodes])
            same("finished", finished_handle(state, buffers), handle_of[rust.finished])


def finished_handle(state, buffers):
    first, behind = buffers.latest(state)
    return buffers.item(behind - 1).handle if first < behind and buffers.item(behind - 1)[1] == 0 else NO_NODE


# ------------------------------------------------------------------------------------------------- Beside the bocage

def trees_below(below, handle):
    """The trees of the crate's own forest, as ours are listed."""
    here = below[handle]
    if isinstance(here, int):
        yield (here,)
        return
    for action, factors in here[1]:
        left, right = factors[0], factors[1:]
        for front in trees_below(below, left):
            for back in trees_below(below, right[0]) if right else [()]:
                yield (action, *front, *back)


def same_below(store, handle, below, rust_handle):
    """Node by node: the same forest, but that the Rust has no Sum for one summand, and of several the first one last. Its wide Sum takes the place of
    several: there only the trees are compared."""
    met["finished nodes"] += 1
    if any(forest.summands(store, here)[0] >= 32 for here in forest.sums_below(store, handle)[0]):
        met["finished nodes with a wide Sum"] += 1
        return
    ambiguous = False
    ours_of, due = {}, [(rust_handle, handle)]
    while due:
        theirs, ours = due.pop()
        if theirs in ours_of:
            same("one node for one", ours_of[theirs], ours)
            continue
        ours_of[theirs] = ours
        node, here = forest.node_at(store, ours)[0], below[theirs]
        if isinstance(here, int):
            same("a leaf", node, ("Evaluated", here))
            continue
        same("a Sum", node[0], "Sum")
        has_sum, summands = here
        count, products = forest.summands(store, ours)
        same("no Sum for one summand", has_sum, count > 1)
        ambiguous |= count > 1
        met["sums of several below finished nodes"] += count > 1
        summands = summands[-1:] + summands[:-1]
        same("actions", [(action, len(factors)) for action, factors in products], [(action, len(factors)) for action, factors in summands])
        due += [pair for (_, mine), (_, rusts) in zip(products, summands) for pair in zip(rusts, mine)]
    same("nothing else is below", len(set(ours_of.values())), len(below))
    met["ambiguous finished nodes"] += ambiguous


def same_trees(store, handle, below, rust_handle):
    answer, count = forest.count(store, handle)
    same("count", answer, 0)
    if count <= MOST_TREES:
        listed, theirs = list(forest.trees(store, handle, MOST_TREES)), list(trees_below(below, rust_handle))
        same("each tree once", (len(set(listed)), len(theirs)), (count, count))
        same("trees", set(listed), set(theirs))
        met["trees beside the Rust"] += count


def beside_the_bocage(rng):
    cases = some_cases(rng, False)
    written, own = streams.ask_bocage(cases), streams.ask_bocage(cases, "bocage")
    for case, (grown, units), (grown_own, _) in zip(cases, written, own):
        same("rustc's own layout gives the same forest", grown_own, grown)
        state, buffers = beginning(case)
        grammar = model.check(case.file)[1]
        for token, rust in zip(case.tokens, grown):
            answer, state, _ = forest.take(grammar, state, buffers, token)
            same("answer", answer, rust.number)
            if answer:
                met["tokens refused by the bocage's recognizer"] += 1
                continue
            handle = finished_handle(state, buffers)
            same("finished", handle != NO_NODE, rust.finished != NO_NODE)
            if handle != NO_NODE:
                same_below(buffers.store, handle, rust.below, rust.finished)
                same_trees(buffers.store, handle, rust.below, rust.finished)
        same("the Rust's store begins with a NullingLeaf", units[0], 0x9000)
        same("ours reads the Rust's store", node_model.walk(units, 0)[0], 0)
        same("ours has no filler", node_model.FILLER in buffers.store[:state.used], False)
        met["stores of the Rust with fillers"] += node_model.FILLER in units
        met["stores of the Rust"] += 1


def units_of_the_rust():
    """The smallest inputs, unit by unit."""
    hexadecimal = lambda units: " ".join(f"{unit:04X}" for unit in units)
    for name, file, tokens, wanted, finished in [
            ("A 0", model.GRAMMAR_A, [0], "9000 8000 2102", 2),
            ("A 0 0, the second refused", model.GRAMMAR_A, [0, 0], "9000 8000 2102 8000", 2),
            ("A, three numbers", model.GRAMMAR_A, [0, 1, 0, 1, 0],
             "9000 8000 2102 8001 8000 2102 6103 0003 6206 0001 8001 8000 2102 6103 0003 620A 0001 620E 0003 0202 FFFF 6413 0001 6A0F 0001", 19)]:
        grown, units = streams.ask_bocage([Case(file, None, False, tokens)])[0]
        same(f"{name}: the Rust's units", hexadecimal(units), wanted)
        same(f"{name}: the Rust's finished node", [g.finished for g in grown if g.number == 0][-1], finished)
    grown, units = streams.ask_bocage([Case(forest_numbers.FORTY, None, False, [0])])[0]
    at = grown[-1].finished
    same("forty summands: the Rust's wide Sum", hexadecimal(units[at:at + 4]), "E028 0000 0001 0000")
    same("forty summands: the Rust's order", [action for action, _ in grown[-1].below[at][1]], [*range(38, 0, -1), 40, 39])

    told = streams.ask_told([Case(model.GRAMMAR_A, streams.Chart(0, False, [], [0, 0], [model.bit(0)]), False, [0]),
                             Case(forest_numbers.PAIR, streams.Chart(1, False, [(0, 1)], [0, 0, 1], [0, model.bit(1)]), False, [1])])
    same("17.17 a token that nothing uses: the Rust has its leaf", told[0], [streams.Told(6, 0)])
    same("17.17 row 0 lacks the left side: the Rust has the sum", told[1], [streams.Told(0, 1, [(0, 2, 2, [(1, 0, 1)])], NO_NODE, [0])])


# ------------------------------------------------------------------------------------------------ Beside the rules alone

def choices(grammar, words):
    """For each rule of a tree, in preorder, its number and how many tokens its first symbol spans."""
    made, words = [], iter(words)

    def span(symbol):
        word = next(words)
        if symbol < grammar.tokens:
            same("a leaf of the tree", word, symbol)
            return 1
        left, one, two = grammar.rules[word]
        same("a rule of the tree", left, symbol)
        place = len(made)
        made.append(None)
        first = span(one)
        made[place] = (word, first)
        return first + (span(two) if two is not None else 0)

    span(grammar.rules[0][1])
    same("the tree ends", next(words, None), None)
    return made


def in_summand_order(grammar, one, other):
    """At the first choice that differs the rule's number falls; of one rule's several ways the queue tells the order."""
    a, b = next((a, b) for a, b in zip(choices(grammar, one), choices(grammar, other)) if a != b)
    if a[0] != b[0]:
        same("the greater rule comes first", a[0] > b[0], True)
        met["neighbours that part by a rule"] += 1
    else:
        met["neighbours that part by a split"] += 1


def same_as_derived(grammar, string, state, buffers):
    in_hand[2:] = [string]
    derived = forest.Derivations(grammar, string)
    wanted, handle = derived.count(), finished_handle(state, buffers)
    same("finished exactly where there is a derivation", handle != NO_NODE, wanted > 0)
    if handle == NO_NODE:
        met["strings without a tree"] += 1
        return
    store = buffers.store
    same("count", forest.count(store, handle), (0, wanted))
    met["sentences"] += 1
    if wanted > MOST_TREES:
        met["sentences of which only the number is compared"] += 1
        return
    listed = list(forest.trees(store, handle, wanted + 1))
    same("each once", (len(listed), len(set(listed))), (wanted, wanted))
    same("exactly the derivations", sorted(listed), sorted(derived.listed()))
    same("tree by tree", [forest.tree(store, handle, k) for k in range(min(wanted, 20))], listed[:20])
    for one, other in zip(listed, listed[1:]):
        in_summand_order(grammar, one, other)
    met["trees beside the rules"] += wanted
    met["ambiguous sentences"] += wanted > 1


def beside_the_rules(rng):
    """Every string up to a length that is begun, prefix by prefix."""
    for _ in range(40):
        file, grammar = generate.small_grammar(rng)
        longest = {1: 7, 2: 5, 3: 4}[grammar.tokens]

        def visit(string, state, buffers):
            for token in range(grammar.tokens):
                words = buffers.copy()
                answer, after, _ = forest.take(grammar, state, words, token)
                if answer == 6:
                    same("refused 6: no derivation", forest.Derivations(grammar, string + (token,)).count(), 0)
                    continue
                same("taken", answer, 0)
                same_as_derived(grammar, string + (token,), after, words)
                if len(string) + 1 < longest:
                    visit(string + (token,), after, words)

        visit((), *beginning(Case(file, None, False, []), items=400, sets=9, queue=300, units=4000))
        met["grammars beside the rules"] += 1


# ------------------------------------------------------------------------------------------------------------- Runs

# What one round must at least meet.
LEAST = {
    "beside the model 0": 150, "beside the model 6": 20, "beside the model 7": 1, "beside the model 8": 1, "beside the model 9": 1, "beside the model 14": 3,
    "forged states beside the model": 40,
    "told 0": 200, "told 6": 10, "told sums": 1000, "told sums of several": 300, "told sums that are wide": 3, "told sums that complete nothing": 10,
    "told positions of several kinds used": 12, "told positions with a kind passed over": 5,
    "finished nodes": 80, "ambiguous finished nodes": 30, "trees beside the Rust": 500, "stores of the Rust with fillers": 10,
    "sentences": 150, "ambiguous sentences": 50, "trees beside the rules": 800, "strings without a tree": 100,
    "neighbours that part by a rule": 400, "neighbours that part by a split": 80,
}


if __name__ == "__main__":
    sys.exit(rounds.run((new_words_never_decide, beside_the_recognizer, beside_the_bocage, beside_the_rules), LEAST, (units_of_the_rust,)))
