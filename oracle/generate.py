#!/usr/bin/env python3
"""Makes random inputs from fixed seeds, asks the Rust, and records its answers in vectors/.

    generate.py            make all recorded files again (the programs must be built: see build)

More or other inputs: change the seeds or numbers in main(), or import the makers below.
"""

import os
import random

import forest_model as forest
import model
import node_model
import streams
from streams import Case, Chart, HeapCase, POP, PUSH

# -------------------------------------------------------------------------------------------------------- Grammars


def random_grammar(rng, tokens, nonterminals, rules, unary):
    """An accepted grammar with about that many rules. A rule is unary with the given chance.

    The blocks of rules stand in random order, and a unary rule leads to a token or to a nonterminal of a later block.
    Nonterminals that would derive no token string get a rule of tokens, and those that S would not reach a place on the right of one that it
    reaches.
    """
    symbols = tokens + nonterminals + 2
    blocks = list(range(tokens, symbols - 2))
    rng.shuffle(blocks)
    rank = {left: k for k, left in enumerate(blocks)}
    of_block = {left: [] for left in blocks}

    def add(left):
        if rng.random() < unary:
            rule = (left, rng.choice(list(range(tokens)) + blocks[rank[left] + 1:]), None)
        else:
            rule = (left, rng.randrange(symbols - 2), rng.randrange(symbols - 2))
        if rule not in of_block[left]:
            of_block[left].append(rule)

    start = rng.choice(blocks)

    def grammar():
        wrap = (symbols - 2, start, symbols - 1)
        return model.Grammar(symbols, tokens, (wrap,) + tuple(rule for left in blocks for rule in of_block[left]))

    for left in blocks:
        add(left)
    tries = 0
    while 1 + sum(map(len, of_block.values())) < rules and tries < 4 * rules:
        add(rng.choice(blocks))
        tries += 1
    productive = model.productive(grammar())
    for left in blocks:
        if left not in productive:
            of_block[left].append((left, rng.randrange(tokens), None))
            productive = model.productive(grammar())
    reachable = model.reachable(grammar())
    for left in blocks:
        if left not in reachable:
            using = rng.choice([block for block in blocks if block in reachable])
            other = rng.randrange(symbols - 2)
            of_block[using].append((using, *rng.choice([(left, other), (other, left)])))
            reachable = model.reachable(grammar())
    made = grammar()
    file = model.make_file(*made)
    answer, checked = model.check(file)
    if answer != 0:  # one rule too many: the repairs above may pass the most rules
        return random_grammar(rng, tokens, nonterminals, rules - 8, unary)
    assert checked == made
    return file, made


def small_grammar(rng):
    """Small, ambiguous, with unary chains."""
    nonterminals = rng.randint(1, 5)
    rules = rng.randint(2, 3 * nonterminals + 2)
    return random_grammar(rng, rng.randint(1, 3), nonterminals, rules, rng.choice([0.2, 0.4, 0.6]))


def middle_grammar(rng):
    return random_grammar(rng, rng.randint(2, 8), rng.randint(5, 20), rng.randint(15, 60), 0.35)


def large_grammar(rng):
    """More than 64 symbols, so that a second word of a row is used; up to 128 symbols and some 500 rules."""
    symbols = rng.choice([rng.randint(65, 128), 128])
    tokens = rng.randint(10, symbols - 30)
    return random_grammar(rng, tokens, symbols - 2 - tokens, rng.randint(120, 512), 0.3)


def largest_grammar(rng, symbols=None, most_rules=model.MAX_RULES):
    """400 symbols, or as many as there can be, so that every word of a row is used; mostly as many rules as there can be. Few of them have
    one symbol, so that a token completes few symbols."""
    symbols = symbols or rng.choice([400, model.MAX_SYMBOLS, model.MAX_SYMBOLS])
    tokens = rng.randint(50, symbols - 50)
    rules = rng.choice([rng.randint(most_rules // 2, most_rules), most_rules])
    return random_grammar(rng, tokens, symbols - 2 - tokens, rules, rng.choice([0.1, 0.2, 0.3]))


# ---------------------------------------------------------------------------------------------------------- Tokens

def rooms(chart, items=model.MAX_ITEMS, sets=model.MAX_SETS, queue=model.MAX_QUEUE):
    """Lent words that hold a chart, and its state."""
    buffers = model.Buffers.zeroed(items, sets, queue)
    contents = [streams.flat(chart.items), chart.starts, streams.row_words(chart.rows)]
    for words, content in zip([buffers.items, buffers.starts, buffers.rows], contents):
        words[:len(content)] = content
    return model.State(chart.set_number, len(chart.items)), buffers


def any_store(rng):
    """Units that read without a 12, and the heads of their nodes. Factors lie anywhere before."""
    store, heads = [], []
    for _ in range(rng.randint(1, 12)):
        store += [node_model.FILLER] * rng.choice([0, 0, 0, 1, 3])
        position = len(store)
        factor = lambda: rng.randrange(position)
        kinds = [("Evaluated", rng.randrange(5000)), ("NullingLeaf", rng.randrange(9)), ("Sum", rng.randrange(40), rng.randrange(300))]
        if position:
            kinds += [("Product", rng.randrange(300), factor(), rng.choice([None, factor()]))] * 3
        heads.append(position)
        store += node_model.units(position, rng.choice(kinds))
    return store + [node_model.FILLER] * rng.choice([0, 0, 2]), heads


def rooms_with_store(chart, rng=None, items=model.MAX_ITEMS, sets=model.MAX_SETS, queue=model.MAX_QUEUE, units=node_model.USABLE):
    """Lent words that hold a chart, with so many units to spare, and its state. Without rng each item has the leaf with its own number for a node."""
    places = range(len(chart.items))
    store, heads = any_store(rng) if rng else ([0x8000 for _ in places], places)
    handles = [rng.choice(heads) if rng else place for place in places]
    buffers = forest.Buffers.spare(items, sets, queue, len(store) + units)
    item_words = streams.flat((*item, handle) for item, handle in zip(chart.items, handles))
    for words, content in zip([buffers.items, buffers.starts, buffers.rows, buffers.store], [item_words, chart.starts, streams.row_words(chart.rows), store]):
        words[:len(content)] = content
    return forest.State(chart.set_number, len(chart.items), len(store)), buffers


def chart_of(state, buffers):
    e, count = state
    first, behind = buffers.latest(state)
    finished = first < behind and buffers.item(behind - 1)[1] == 0
    items = [buffers.item(place) for place in range(count)]
    return Chart(e, finished, items, buffers.starts[:e + 2], [buffers.row(k) for k in range(e + 1)])


def start_chart(grammar):
    return Chart(0, False, [], [0, 0], [model.closed_rows(grammar)[grammar.symbols - 2]])


def random_tokens(rng, grammar, chart, count, most_items):
    """Tokens of which most are predicted, none refused for room at the largest capacities.

    Stops early where the chart grows past most_items, and before a step on which 01 and the Rust are known to part: a
    predicted token that nothing uses, or an empty latest set (D2 and D3 in docs/DIFFERENCES.md).
    """
    state, buffers = rooms(chart)
    tokens = []
    while len(tokens) < count:
        row = buffers.row(state.set_number)
        predicted = [token for token in range(grammar.tokens) if row & model.bit(token)]
        token = rng.choice(predicted) if predicted and rng.random() < 0.9 else rng.randrange(grammar.tokens)
        answer, state, _ = model.take(grammar, state, buffers, token)
        first, behind = buffers.latest(state)
        if answer not in (0, 6) or (answer == 0 and first == behind) or state.item_count > most_items:
            break
        tokens.append(token)
        if not predicted:  # one refusal shows it
            break
    return tokens


def random_positions(rng, grammar, chart, count, most_items):
    """The same of positions of one kind or more, of which one or more are predicted or none."""
    state, buffers = rooms(chart)
    positions = []
    while len(positions) < count:
        kinds = sorted(rng.sample(range(grammar.tokens), rng.randint(1, min(3, grammar.tokens))))
        answer, state, _ = model.take_position(grammar, state, buffers, kinds)
        first, behind = buffers.latest(state)
        if answer not in (0, 6) or (answer == 0 and first == behind) or state.item_count > most_items:
            break
        positions.append(kinds)
        if answer == 6 and rng.random() < 0.5:
            break
    return positions


def position_case(rng, make_grammar, forged=False, most_items=200):
    """A run of positions from the start, or from a well-formed state that need not be reachable."""
    case = (forged_case if forged else reached_case)(rng, make_grammar, 0)
    grammar = model.check(case.file)[1]
    return case._replace(tokens=random_positions(rng, grammar, case.chart or start_chart(grammar), rng.randint(2, 9), most_items))


def reached_case(rng, make_grammar, count, most_items=250):
    """A run from the start."""
    file, grammar = make_grammar(rng)
    return Case(file, None, False, random_tokens(rng, grammar, start_chart(grammar), count, most_items))


def forged_case(rng, make_grammar, count, most_items=250):
    """A run from a well-formed state that need not be reachable."""
    file, grammar = make_grammar(rng)
    table = model.closed_rows(grammar)
    binary = [rule for rule, (_, _, second) in enumerate(grammar.rules) if second is not None]
    items, starts, rows = [], [0], []
    set_number = rng.randint(0, 7)
    for k in range(set_number + 1):
        possible = [(origin, rule) for origin in range(k) for rule in binary]
        chosen = rng.sample(possible, min(len(possible), rng.choice([1, 3, 8, 24])))
        items += sorted(chosen, key=lambda item: model.set_order(grammar, item))
        starts.append(len(items))
        rows.append(rng.getrandbits(grammar.symbols) | table[rng.randrange(grammar.symbols)])
    latest_finished = starts[-2] < starts[-1] and items[-1][1] == 0
    chart = Chart(set_number, latest_finished, items, starts, rows)
    if starts[-2] == starts[-1] and items:
        return forged_case(rng, make_grammar, count, most_items)
    return Case(file, chart, False, random_tokens(rng, grammar, chart, count, most_items))


# ------------------------------------------------------------------------------------------------- Heap and nodes

def heap_case(rng):
    """Pushes and pops over items with few keys, so that most are equal to others. Ends with an empty heap."""
    origins, rules = rng.choice([(1, 1), (1, 2), (2, 2), (3, 3)])
    items = [(rng.randrange(origins), rng.randrange(rules)) for _ in range(rng.choice([rng.randint(2, 24), 70]))]
    places = list(range(len(items)))
    rng.shuffle(places)
    operations, queued = [], 0
    while places or queued:
        if places and (queued == 0 or rng.random() < 0.65):
            operations.append((PUSH, places.pop()))
            queued += 1
        else:
            operations.append((POP,))
            queued -= 1
    return HeapCase(items, operations)


def near(rng, *edges):
    """A number at or beside an edge, or anywhere below the last one."""
    edge = rng.choice(edges)
    return max(0, edge + rng.randint(-2, 2)) if rng.random() < 0.8 else rng.randrange(edges[-1])


def random_node(rng, position):
    """A node on which 01 and the Rust agree: one unit, two units, or the long Product. Its factors lie before it, so at 0 there is no Product."""
    kind = rng.choice(["sum", "leaf"] + ["link", "link", "product", "product"] * (position > 0))
    if kind == "sum":
        return model.Sum(rng.choice([0, 1, 2, 30, 31, rng.randrange(32)]), rng.choice([0, 254, 255, rng.randrange(256)]))
    if kind == "leaf":
        return rng.choice([model.NullingLeaf, model.Evaluated])(rng.choice([0, 4094, 4095, rng.randrange(4096)]))
    near_factor = lambda: max(0, position - max(1, near(rng, 1, 31, 255, 8191)))
    factor = lambda: near_factor() if rng.random() < 0.9 else rng.randrange(position)
    action = min(near(rng, 0, 255, 65535, 2**29 - 3), 2**29 - 1)
    return model.Product(action, factor(), None if kind == "link" else factor())


def random_place(rng):
    position = rng.choice([0, 1, rng.randrange(300), rng.randrange(32762), 32761])
    return position, random_node(rng, position)


def random_store(rng):
    """A store of such nodes with fillers between them, and a position at one of them or at fillers before it."""
    units, heads = [], [0]
    for _ in range(rng.randint(1, 12)):
        heads.append(len(units))
        units += [model.FILLER] * rng.choice([0, 0, 0, 1, 2, 5])
        units += model.units_of(random_node(rng, len(units)), len(units))
    units += [model.FILLER] * rng.choice([0, 0, 1, 3])
    return units, rng.choice([0, rng.choice(heads), len(units)])


# --------------------------------------------------------------------------------------------------------- Records

def record(name, records):
    """Writes a file: the number of records, then each one. A record is a list of lines of numbers."""
    os.makedirs(streams.VECTORS, exist_ok=True)
    with open(os.path.join(streams.VECTORS, name), "w") as out:
        out.write(f"{len(records)}\n")
        for lines in records:
            for line in lines:
                out.write(" ".join(map(str, line)) + "\n")


def state_record(case, before, answers):
    lines = [streams.case_numbers(case), streams.chart_numbers(before)]
    for answer in answers:
        if answer.number:
            lines.append([answer.number])
        else:
            popped = [n for origin, left, places in answer.sums for n in [origin, left, len(places), *places]]
            lines.append([answer.number, *answer.room, len(answer.sums), *popped])
            lines.append(streams.chart_numbers(answer.chart))
    return lines


def record_states(name, cases):
    record(name, [state_record(case, *told) for case, told in zip(cases, streams.ask_states(cases))])


def main():
    by_hand = [Case(model.GRAMMAR_A, None, False, [0, 1, 0, 0, 1, 0, 1, 0, 1, 0]), Case(model.GRAMMAR_B, None, False, [0, 1, 2] * 3 + [1])]
    rng = random.Random(1)
    record_states("states_small.txt", by_hand + [reached_case(rng, small_grammar, rng.randint(4, 14), 140) for _ in range(300)])
    rng = random.Random(2)
    record_states("states_large.txt", [reached_case(rng, large_grammar, 6, 800) for _ in range(24)] +
                  [reached_case(rng, middle_grammar, 9, 300) for _ in range(40)] +
                  [reached_case(rng, largest_grammar, 6, 800) for _ in range(8)])
    rng = random.Random(3)
    record_states("states_forged.txt", [forged_case(rng, small_grammar, 4, 150) for _ in range(200)] +
                  [forged_case(rng, middle_grammar, 3, 200) for _ in range(40)] +
                  [forged_case(rng, large_grammar, 2, 400) for _ in range(10)] +
                  [forged_case(rng, largest_grammar, 2, 800) for _ in range(4)])

    rng = random.Random(4)
    cases = [heap_case(rng) for _ in range(300)]
    popped = streams.Numbers(streams.ask("recognize", "heap", [n for case in cases for n in streams.heap_numbers(case)]))
    record("heap.txt", [[streams.heap_numbers(case), popped.list(streams.pops(case))] for case in cases])

    rng = random.Random(5)
    places = [random_place(rng) for _ in range(2500)]
    record("nodes.txt", [[[position, *streams.node_numbers(node), len(units), *units]]
                         for (position, node), units in zip(places, streams.ask_write(places))])
    stores = [random_store(rng) for _ in range(500)]
    read_numbers = lambda read: [len(read)] + [n for node, behind in read for n in [*streams.node_numbers(node), behind]]
    record("stores.txt", [[[len(units), *units, position], read_numbers(read)]
                          for (units, position), read in zip(stores, streams.ask_read(stores))])


if __name__ == "__main__":
    main()
