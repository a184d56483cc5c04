#!/usr/bin/env python3
"""The built library beside the plain model with the forest and beside the Rust.

    differential.py SEED ROUNDS LEAST

First some strings in every room of a box, so that each of 7, 8, 9 and 14 comes first somewhere. Then ROUNDS times 400 random cases from SEED beside
the model, and 25 runs beside the Rust: grammars, capacities of every small size, rubbish in all words and units before a start and in those past
the capacities after it, tokens in and out of range, positions of several kinds, runs, reports, forged and damaged states and stores; every word and unit is compared after
every call. Prints what was met. Fails where one of the refusals 3 to 9 and 14 was met less than LEAST times, an answer of one call or a way to
damage a state less than a twentieth of that, or a large grammar not at all.
"""

import random
import sys
from functools import lru_cache
from itertools import product

import forest_model as forest
import generate
import library
import model
import node_model
import streams
from rounds import Differs, met, same

U16, U32, U64 = 2**16, 2**32, 2**64
ROOM_REFUSALS = (7, 8, 9, forest.FOREST_ROOM)
ENOUGH_UNITS = 6000  # for all that is read beside the Rust
DOUBLE = model.make_file(4, 1, [(2, 1, 3), (1, 1, 1), (1, 0, None)])  # S ::= S S | 0
model.check = lru_cache(maxsize=64)(model.check)  # every call checks its file; the answer is the same


# -------------------------------------------------------------------------------------------- A parse kept by both

class Both:
    """One parse in the model's words and in the library's. Each call is made on both, and everything compared."""

    def __init__(self, file, state, buffers):
        self.data, self.file, self.state, self.buffers = file, library.File(file), state, buffers
        self.lent = library.Lent(buffers)

    def tell(self, call, ours, wanted):
        met[f"{call} {wanted[0]}"] += 1
        met["calls"] += 1
        about = f"{call} on {self.data.hex()}, state {tuple(self.state)}"
        same(about, ours, wanted)
        same(f"{about}: words", self.lent.words(), self.buffers.words())

    def begin(self):
        wanted = forest.begin(self.data, self.state, self.buffers)
        self.tell("start", library.begin(self.file, self.state, self.lent), wanted)
        self.state = wanted[1]
        return wanted[0]

    def token(self, number):
        wanted = forest.token(self.data, self.state, self.buffers, number)
        self.tell("token", library.token(self.file, self.state, self.lent, number), wanted)
        self.state = wanted[1]
        return wanted[0]

    def run(self, tokens):
        wanted = forest.run(self.data, self.state, self.buffers, tokens)
        self.tell("run", library.run(self.file, self.state, self.lent, tokens), wanted)
        self.state = wanted[1]
        return wanted[0]

    def kinds(self, position):
        wanted = forest.kinds(self.data, self.state, self.buffers, position)
        self.tell("kinds", library.kinds(self.file, self.state, self.lent, position), wanted)
        self.state = wanted[1]
        return wanted[0]

    def run_kinds(self, words):
        wanted = forest.run_kinds(self.data, self.state, self.buffers, words)
        self.tell("run_kinds", library.run_kinds(self.file, self.state, self.lent, words), wanted)
        self.state = wanted[1]
        return wanted[0]

    def reports(self):
        wanted = forest.finished(self.data, self.state, self.buffers)
        self.tell("finished", library.finished(self.file, self.state, self.lent), wanted)
        answer, part = forest.latest_set(self.data, self.state, self.buffers)
        first = 0 if answer else forest.Buffers.ITEM_WORDS * self.buffers.latest(self.state)[0]
        self.tell("latest set", library.latest_set(self.file, self.state, self.lent), (answer, first, len(part)))

    def every_call(self, rng, grammar):
        """Each call but start, where all are to be refused alike."""
        token = rng.randrange(grammar.tokens)
        answer = self.token(token)
        for call, read in [("run", [token]), ("kinds", [token]), ("run_kinds", [1, token])]:
            same(f"{call} refused alike", getattr(self, call)(read), answer)
        self.reports()
        return answer


def rubbish(rng, words, top):
    return [rng.choice([0, 1, 2, 7, top - 1, rng.randrange(top)]) for _ in range(words)]


def small_words(rng):
    """Words and units of any small number, odd ones too, all rubbish. E is the least of starts less one and the whole rows."""
    often = lambda most, few=3: rng.choice([rng.randint(0, few), rng.randint(0, most)] + [rng.randint(most // 2, most)] * 4)
    rows = often(14 * model.ROW_WORDS - 1, 2 * model.ROW_WORDS - 1)
    return forest.Buffers(rubbish(rng, often(135), U32), rubbish(rng, often(14), U32), rubbish(rng, rows, U64), rubbish(rng, often(36), U32),
                          rubbish(rng, often(rng.choice([40, 400])), U16))


def large_words(rng):
    """Words and units about the largest capacities, so that some lie past them."""
    about = lambda most: max(0, most + rng.randint(-2, 3))
    items, starts, rows, queue = 3 * model.MAX_ITEMS, model.MAX_SETS + 1, model.ROW_WORDS * model.MAX_SETS, 2 * model.MAX_QUEUE
    return forest.Buffers(rubbish(rng, about(items), U32), rubbish(rng, about(starts), U32), rubbish(rng, about(rows), U64),
                          rubbish(rng, about(queue), U32), rubbish(rng, about(node_model.USABLE), U16))


# ----------------------------------------------------------------------------------------------------------- Cases

def any_state(rng):
    return forest.State(rng.randrange(5), rng.randrange(5), rng.randrange(5))


def random_file(rng):
    """A grammar file, few of them large; now and then one that the check refuses."""
    file, grammar = rng.choice([generate.small_grammar] * 360 + [generate.middle_grammar] * 40 + [generate.largest_grammar])(rng)
    if rng.random() < 0.1:
        damaged = bytearray(file)
        damaged[rng.randrange(len(file))] ^= 1 << rng.randrange(8)
        file = bytes(damaged)[:len(file) - rng.choice([0, 0, 0, 1, 6])]
    return file, grammar


def is_large(grammar):
    """Whether symbols stand past the second word of a row."""
    return grammar.symbols > 2 * model.WORD_BITS


def next_token(rng, both, grammar):
    """Mostly a predicted token; else any, T and above, or past a u16."""
    row = both.buffers.row(both.state.set_number) if both.buffers.set_room > both.state.set_number else 0
    predicted = [token for token in range(grammar.tokens) if row & model.bit(token)]
    if predicted and rng.random() < 0.8:
        return rng.choice(predicted)
    if rng.random() < 0.6:
        return rng.choice([token for token in range(grammar.tokens) if token not in predicted] or [grammar.tokens])
    return rng.choice([grammar.tokens, grammar.symbols - 1, 65535, 65536, 65536 + rng.randrange(grammar.tokens), U32 - 1])


def next_position(rng, both, grammar):
    """A few kinds, mostly rising tokens of which one is predicted or more; else none, some that do not rise, or one that is no token."""
    kinds = sorted({min(next_token(rng, both, grammar), 65535) for _ in range(rng.choice([1, 2, 2, 3, 5]))})
    if kinds[-1] >= grammar.tokens and rng.random() < 0.8:
        kinds = [kind for kind in kinds if kind < grammar.tokens]
    if rng.random() < 0.1:
        return rng.choice([kinds[::-1], kinds + kinds[-1:], []])
    return kinds


def words_of_a_run(rng, both, grammar):
    """The words of some positions, now and then cut off or with a wrong number of kinds."""
    words = model.words_of_positions(next_position(rng, both, grammar) for _ in range(rng.randint(0, 4)))
    if words and rng.random() < 0.2:
        words = words[:rng.randrange(len(words))]
    if words and rng.random() < 0.1:
        words[rng.randrange(len(words))] = rng.choice([0, 1, 2, 65535])
    return words


def any_call(rng, both, grammar):
    """Reads a token or a position, or a run of them."""
    call = rng.choice(["token"] * 5 + ["run"] * 2 + ["kinds"] * 4 + ["run_kinds"] * 2)
    if call == "token":
        return both.token(next_token(rng, both, grammar))
    if call == "run":
        return both.run([min(next_token(rng, both, grammar), 65535) for _ in range(rng.randint(0, 4))])
    if call == "kinds":
        return both.kinds(next_position(rng, both, grammar))
    return both.run_kinds(words_of_a_run(rng, both, grammar))


def a_parse(rng):
    """A parse from the start, in words of any size, each answer looked at."""
    file, grammar = random_file(rng)
    buffers = large_words(rng) if rng.random() < 0.002 else small_words(rng)
    both = Both(file, any_state(rng), buffers)
    same("check", library.check(both.file), model.check(file)[0])
    met[f"check {model.check(file)[0]}"] += 1
    if both.begin():
        if rng.random() < 0.3:
            both.every_call(rng, grammar)
        return
    met["parses of large grammars"] += is_large(grammar)
    refusals = 0
    for _ in range(rng.randint(1, 16)):
        answer = any_call(rng, both, grammar)
        if rng.random() < 0.3:
            both.reports()
        refusals += answer != 0
        if refusals > 2:
            break
    both.reports()


def fitting(rng, chart):
    """Words that hold a chart with little or no room to spare, rubbish past the capacities, and its state."""
    spare = lambda: rng.choice([0, 0, 1, 2, 3, 8])
    sets = chart.set_number + 1 + spare()
    queue, units = rng.choice([0, 1, 2, 3, 5, 9, 30]), rng.choice([0, 1, 2, 4, 8, 16, 40, 40, 400])
    state, buffers = generate.rooms_with_store(chart, rng, len(chart.items) + spare(), sets, queue, units)
    if rng.random() < 0.5:
        buffers.items += rubbish(rng, rng.randint(1, 2), U32)
    if rng.random() < 0.5:
        buffers.queue += rubbish(rng, 1, U32)
    if rng.random() < 0.5:
        buffers.starts += rubbish(rng, rng.randint(1, 3), U32)  # then the rows are the fewer
        buffers.rows += rubbish(rng, rng.randrange(model.ROW_WORDS), U64)
    elif rng.random() < 0.5:
        buffers.rows += rubbish(rng, rng.randint(1, 2 * model.ROW_WORDS), U64)
    return state, buffers


def a_forged_state(rng):
    """Tokens and positions on a well-formed state that no start need reach."""
    case = generate.forged_case(rng, generate.small_grammar, 0)
    grammar = model.check(case.file)[1]
    both = Both(case.file, *fitting(rng, case.chart))
    for _ in range(rng.randint(1, 4)):
        if any_call(rng, both, grammar):
            break
    both.reports()


# ----------------------------------------------------------------------------------- Each phrase of well formed, broken

def a_set_with(rng, chart, least):
    """A set that has at least so many items, and its places."""
    sets = [k for k in range(chart.set_number + 1) if chart.starts[k + 1] - chart.starts[k] >= least]
    if not sets:
        return None, None
    k = rng.choice(sets)
    return k, range(chart.starts[k], chart.starts[k + 1])


def damage(rng, way, grammar, chart, state, buffers):
    """Breaks one phrase. The new state, or None where the chart has no place for this damage."""
    if way in STORE_WAYS:
        return damage_store(rng, way, state, buffers)
    e, count, _ = state
    if way == "set number past the sets":
        return state._replace(set_number=buffers.set_room + rng.choice([0, 1, 7, 2**40]))
    if way == "item count past the items":
        buffers.starts[e + 1] = buffers.item_room + 1
        return state._replace(item_count=buffers.item_room + rng.choice([1, 2, 2**40]))
    if way == "first start":
        buffers.starts[0] = rng.choice([1, count + 1, U32 - 1])
        return state
    if way == "second start":
        buffers.starts[1] = rng.choice([1, count + 1, U32 - 1])
        return state
    if way == "falling start":
        if e < 2 or count == 0:
            return None
        k = rng.randint(2, e)
        buffers.starts[k] = rng.choice([chart.starts[k + 1] + 1, U32 - 1])
        return state
    if way == "last start":
        buffers.starts[e + 1] = rng.choice([count + 1, max(0, count - 1), U32 - 1])
        return state if buffers.starts[e + 1] != count else None
    if way in ("origin", "rule past the rules", "rule without a second"):
        k, places = a_set_with(rng, chart, 1)
        unary = [rule for rule, (_, _, second) in enumerate(grammar.rules) if second is None]
        if k is None or (way == "rule without a second" and not unary):
            return None
        at = ITEM * rng.choice(places)
        if way == "origin":
            buffers.items[at] = rng.choice([k, k + 1, U32 - 1])
        elif way == "rule past the rules":
            buffers.items[at + 1] = len(grammar.rules) + rng.choice([0, 1, model.MAX_RULES, 2**31])
        else:
            buffers.items[at + 1] = rng.choice(unary)
        return state
    if way in ("two items swapped", "an item twice"):
        k, places = a_set_with(rng, chart, 2)
        if k is None:
            return None
        at = ITEM * rng.choice(places[:-1])
        one, other = buffers.items[at:at + ITEM], buffers.items[at + ITEM:at + 2 * ITEM]
        if way == "an item twice":  # but for the handle, which does not make it another
            other = one[:2] + rng.choice([one, other])[2:]
        buffers.items[at:at + 2 * ITEM] = other + one if way == "two items swapped" else one + other
        return state
    if way == "row bit":
        k, symbol = rng.randint(0, e), rng.choice([grammar.symbols, 63, 64, model.MAX_SYMBOLS - 1, rng.randrange(model.MAX_SYMBOLS)])
        if symbol < grammar.symbols:
            return None
        buffers.rows[model.ROW_WORDS * k + symbol // model.WORD_BITS] |= 1 << symbol % model.WORD_BITS
        return state
    kind = ["spare item word", "spare start", "spare row word", "queue word"].index(way)
    words, room = buffers.parts()[kind]
    used = buffers.used(state)[kind]
    if used >= room:
        return None
    words[rng.randrange(used, room)] = rng.choice([1, 2, U32 - 1])
    return state


def damage_store(rng, way, state, buffers):
    """The same of what is said of the store and the handles."""
    used, store = state.used, buffers.store
    heads = forest.heads(store[:used])
    if way == "used past the units":
        return state._replace(used=buffers.unit_room + rng.choice([1, 2, 2**40]))
    if way == "spare unit":
        if used == buffers.unit_room:
            return None
        store[rng.randrange(used, buffers.unit_room)] = rng.choice([0, 0x8000, 0xFFFE])
        return state
    if way == "the last node cut off":
        last = max(heads)
        if node_model.read(store, last)[2] == last + 1:
            return None
        store[last + 1:] = [node_model.FILLER] * (len(store) - last - 1)
        return state._replace(used=last + 1)
    if way == "a 12 among the used units":
        store[rng.choice(sorted(heads))] = rng.choice([0xF000, 0xA002, 0xFFFE])
        return state
    if state.item_count == 0:
        return None
    place = ITEM * rng.randrange(state.item_count) + 2
    others = {"handle at a filler": [at for at in range(used) if store[at] == node_model.FILLER and at not in heads],
              "handle inside a node": [at for at in range(used) if at not in heads and any(head < at < node_model.read(store, head)[2] for head in heads)],
              "handle past the used units": [used, used + 1, node_model.USABLE, U32 - 1]}[way]
    if not others:
        return None
    buffers.items[place] = rng.choice(others)
    return state


ITEM = forest.Buffers.ITEM_WORDS
STORE_WAYS = ["used past the units", "spare unit", "the last node cut off", "a 12 among the used units", "handle at a filler", "handle inside a node",
              "handle past the used units"]
WAYS = ["set number past the sets", "item count past the items", "first start", "second start", "falling start", "last start", "origin",
        "rule past the rules", "rule without a second", "two items swapped", "an item twice", "row bit", "spare item word", "spare start",
        "spare row word", "queue word"] + STORE_WAYS


def a_damaged_state(rng):
    """One phrase of well formed broken alone: 4 from every call, and nothing touched. Unbroken, the state is taken."""
    case = generate.forged_case(rng, generate.small_grammar, 0)
    grammar = model.check(case.file)[1]
    state, buffers = fitting(rng, case.chart)
    for way in rng.sample(WAYS, 6):
        broken = buffers.copy()
        damaged = damage(rng, way, grammar, case.chart, state, broken)
        if damaged is None:
            continue
        both = Both(case.file, damaged, broken)
        same(f"broken: {way}", both.every_call(rng, grammar), 4)
        met[f"damaged: {way}"] += 1
    both = Both(case.file, state, buffers)
    both.reports()
    same("unbroken", forest.finished(case.file, state, buffers)[0], 0)


# ---------------------------------------------------------------------------------------------------------- Nodes

def any_node(rng, position):
    """Five numbers, mostly of a node beside the edges of 01's rows, now and then of none."""
    edge = lambda *edges: max(0, min(U32 - 1, rng.choice(edges) + rng.randint(-2, 2))) if rng.random() < 0.8 else rng.randrange(U32)
    factor = lambda: rng.choice([max(0, position - edge(0, 31, 32, 255, 256, 8191, 8192)), edge(position, 0, U32 - 1)])
    kind = rng.choice([0, 0, 1, 1, 1, 1, 2, 3])
    if kind == 0:
        return [0, edge(0, 31, 32, 65536, 2**28), edge(0, 255, 256, 65536, U32 - 1), 0, 0]
    if kind == 1:
        present = rng.randint(0, 1)
        return [1, edge(0, 255, 256, 65535, 2**29), factor(), present, factor() if present else 0]
    return [kind, edge(0, 4095, 4096, 65536, U32 - 1), 0, 0, 0]


def read_numbers(numbers):
    return streams.read_node(streams.Numbers(numbers))


def some_nodes(rng):
    """Nodes written, read back and walked over, and foreign units read."""
    store = [rng.choice([0xFFFF, 0, rng.randrange(65536)]) for _ in range(rng.randint(0, 40))]
    if rng.random() < 0.02:
        store += [0xFFFF] * (32768 - rng.randint(-3, 50))
    for _ in range(6):
        position = rng.choice([rng.randrange(len(store) + 3), max(0, len(store) - rng.randint(0, 8)), 32760 + rng.randint(0, 9)])
        numbers = any_node(rng, position)
        units = store[:]
        answer, told = model.write_node(units, position, read_numbers(numbers))
        words = (told, 0xBAD) if answer == 0 else (0xBAD, told)
        same(f"write {numbers} at {position}", library.node_write(store, position, numbers), (answer, *words, units))
        met[f"node write {answer}"] += 1
        store = units
        a_read(rng.choice([position, rng.randrange(len(store) + 3)]), store)
        a_walk(rng.choice([0, position, rng.randrange(len(store) + 3)]), store)
    same("no kind of a node", library.node_write(store, position, [rng.randint(4, U32 - 1), 0, 0, 0, 0]), (10, 0xBAD, position, store))


def a_read(position, store):
    answer, node, told = model.read_node(store, position)
    if node is not None:
        wanted = (0, streams.node_numbers(node), told, 0xBAD)
    else:
        wanted = (0, [4, 0, 0, 0, 0], 0xBAD, 0xBAD) if answer == 0 else (12, [0xBAD] * 5, 0xBAD, told)
    same(f"read at {position}", library.node_read(store, position), wanted)
    met[f"node read {answer}" + (" end" if answer == 0 and node is None else "")] += 1


def a_walk(position, store):
    answer, count, behind, place = model.walk(store, position)
    same(f"walk from {position}", library.node_walk(store, position), (answer, count, behind, 0xBAD if place is None else place))
    met[f"node walk {answer}"] += 1


# -------------------------------------------------------------------------------------------------------- The Rust

def beside_the_rust(rng, cases=20):
    """Random runs from the start and from forged states."""
    makers = [generate.small_grammar] * 36 + [generate.middle_grammar] * 12 + [generate.large_grammar] * 6 + [generate.largest_grammar]
    made = [generate.reached_case(rng, rng.choice(makers), 12, 250) for _ in range(cases)]
    made += [generate.forged_case(rng, generate.small_grammar, 4, 150) for _ in range(cases // 4)]
    compare_with_the_rust(made)


def compare_with_the_rust(made):
    """Whole states after each token or position, as the Rust tells them. The capacities are just those that the Rust needed; with one less of a kind
    the last step is refused 7, 8 or 9, and with one unit less than were used 14."""
    for case, (before, answers) in zip(made, streams.ask_states(made)):
        items = max([len(before.items)] + [answer.room[0] for answer in answers if answer.number == 0])
        queue = max([0] + [answer.room[1] for answer in answers if answer.number == 0])
        charts = [before] + [answer.chart for answer in answers if answer.number == 0]
        sets = max(chart.set_number + 1 for chart in charts)
        units = compare_run(case, before, answers, items, sets, queue)
        taken = [answer for answer in answers if answer.number == 0]
        if taken and max(answer.room[0] for answer in taken) == items > len(before.items):
            refused_run(case, before, items - 1, sets, queue, units, 7)
        if queue:
            refused_run(case, before, items, sets, queue - 1, units, 8)
        if sets > before.set_number + 1:
            refused_run(case, before, items, sets - 1, queue, units, 9)
        if taken:
            refused_run(case, before, items, sets, queue, units - 1, forest.FOREST_ROOM)


def placed(case, before, items, sets, queue, units):
    """The library's words with the chart before the tokens, from a start where the case begins there."""
    file = library.File(case.file)
    state, buffers = generate.rooms_with_store(before, None, items, sets, queue, units)
    lent = library.Lent(buffers)
    if case.chart is None:
        lent = library.Lent(forest.Buffers.spare(items, sets, queue, units))
        same("start beside the Rust", library.begin(file, forest.State(9, 9, 9), lent), (0, state))
        same("words after start", lent.words(), buffers.words())
    return file, state, lent


def read_next(file, state, lent, token):
    """A token, or the kinds of a position."""
    return (library.token if isinstance(token, int) else library.kinds)(file, state, lent, token)


def compare_run(case, before, answers, items, sets, queue):
    """How many units were used. The Rust tells origins and rules; the handles and units are compared with the model's elsewhere."""
    file, state, lent = placed(case, before, items, sets, queue, ENOUGH_UNITS)
    began = state.used
    for token, answer in zip(case.tokens, answers):
        number, state = read_next(file, state, lent, token)
        same(f"Rust: {token} on {case.file.hex()}", number, answer.number)
        met[f"Rust: {'token' if isinstance(token, int) else 'position'} {number}"] += 1
        if number == 0:
            wanted_state, wanted = generate.rooms(answer.chart, items, sets, queue)
            same("Rust: state", state[:2], wanted_state)
            ours, *others = lent.words()
            same("Rust: items", [word for at in range(0, len(ours), ITEM) for word in ours[at:at + 2]], wanted.items)
            same("Rust: starts, rows and queue", others[:2] + [others[2][::2], others[2][1::2]], [wanted.starts, wanted.rows, wanted.queue, wanted.queue])
            same("Rust: finished", library.finished(file, state, lent)[:2], (0, answer.chart.finished))
    met["Rust: runs"] += 1
    met["Rust: runs of large grammars"] += is_large(model.check(case.file)[1])
    return state.used - began


def refused_run(case, before, items, sets, queue, units, refusal):
    file, state, lent = placed(case, before, items, sets, queue, units)
    number, taken = 0, 0
    while number in (0, 6) and taken < len(case.tokens):
        number, state = read_next(file, state, lent, case.tokens[taken])
        taken += 1
    same(f"Rust: with one less, {items} items, {sets} sets, {queue} queued, {units} units, {case.file.hex()}", number, refusal)
    met[f"Rust: one less {refusal}"] += 1


# ------------------------------------------------------------------------------------------------------ Every room of a box

def every_room():
    """Strings in each room up to a little more than they need: which refusal comes first."""
    for name, file, tokens, units, items, queue, sets in [
            ("A 0 1 0", model.GRAMMAR_A, [0, 1, 0], 14, 8, 3, 5),
            ("B 0 1 2 0", model.GRAMMAR_B, [0, 1, 2, 0], 14, 8, 2, 6),
            ("S ::= S S | 0, 0 0 0", DOUBLE, [0, 0, 0], 22, 11, 3, 5)]:
        for room in product(range(units), range(items), range(queue), range(1, sets)):
            both = Both(file, forest.FRESH, forest.Buffers.spare(room[1], room[3], room[2], room[0]))
            same("start", both.begin(), 0)
            answer = next((answer for answer in map(both.token, tokens) if answer), 0)
            met[f"{name}, first {answer}"] += 1
            same(f"{name} in {room}", answer in (0, *ROOM_REFUSALS), True)
        met["strings in every room"] += 1
        for answer in (0, *ROOM_REFUSALS):
            same(f"{name}: {answer} comes first somewhere", met[f"{name}, first {answer}"] > 0, True)


# ------------------------------------------------------------------------------------------------------------- Runs

READING = ("token", "run", "kinds", "run_kinds")
CASES = [(a_parse, 50), (a_forged_state, 12), (a_damaged_state, 22), (some_nodes, 6)]
ASKED = [f"start {n}" for n in (0, 1, 2, 3)] + [f"{call} {n}" for call in READING for n in (0, 1, 2, 4, 5, 6, *ROOM_REFUSALS)] + \
        [f"{call} {n}" for call in ("finished", "latest set") for n in (0, 1, 2, 4)] + [f"damaged: {way}" for way in WAYS] + \
        ["node write 0", "node write 10", "node write 11", "node read 0", "node read 12", "node read 0 end", "node walk 0", "node walk 12", "Rust: runs", "Rust: token 0", "Rust: token 6"]

RARER = ["parses of large grammars", "Rust: runs of large grammars"]


def refusals(number):
    return sum(count for name, count in met.items() if name in [f"{call} {number}" for call in ("start", *READING)])


def main():
    seed, rounds, least = (int(word) for word in sys.argv[1:4])
    rng = random.Random(seed)
    cases, weights = zip(*CASES)
    try:
        every_room()
        for _ in range(rounds):
            for case in rng.choices(cases, weights, k=400):
                case(rng)
            beside_the_rust(rng)
    except Differs as differs:
        print(f"seed {seed}: {differs}")
        return 1
    for name in sorted(met):
        print(f"{name}: {met[name]}")
    rare = [f"refusal {n}" for n in (3, 4, 5, 6, *ROOM_REFUSALS) if refusals(n) < least] + [name for name in ASKED if met[name] < max(1, least // 20)]
    rare += [name for name in RARER if not met[name]]
    if rare:
        print("met too rarely: " + ", ".join(rare))
        return 1
    print(f"seed {seed}: {met['calls']} calls beside the model, {met['Rust: runs']} runs beside the Rust, no difference")
    return 0


if __name__ == "__main__":
    sys.exit(main())
