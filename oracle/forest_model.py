"""The parse with the forest (02, C-17) in plain Python, beside which the library is run; and the trees of a store (C-20).

All that the forest leaves as it was is model.py's, run over these lent words: begin, token, kinds, run, run_kinds, latest_set and the reports are its functions. Nodes
are written and read by node_model.py.
"""

from collections import namedtuple
from functools import lru_cache
from itertools import islice
from math import prod

import model
import node_model
from node_model import ALL_ONES, FILLER, USABLE

# The new refusals.
FOREST_ROOM, TOO_SHORT, TOO_MANY_TREES, NO_SUCH_TREE = 14, 13, 23, 24

# ----------------------------------------------------------------------------------------------------------- Parse

State = namedtuple("State", "set_number item_count used")
FRESH = State(0, 0, 0)


class Item(tuple):
    """Origin and rule, which alone are compared. The handle travels with them."""

    def __new__(cls, origin, rule, handle):
        item = super().__new__(cls, (origin, rule))
        item.handle = handle
        return item


class Entry(int):
    """A queued place. The right factor travels with it, all ones where there is none."""

    def __new__(cls, place, right):
        entry = super().__new__(cls, place)
        entry.right = right
        return entry


def heads(units):
    """The positions of the nodes met from 0 to the end, or None where there is a 12 on the way."""
    found, position = set(), 0
    while True:
        while position < len(units) and units[position] == FILLER:
            position += 1
        answer, node, behind = node_model.read(units, position)
        if node is None:
            return None if answer else found
        found.add(position)
        position = behind


class Buffers(model.Buffers):
    """The lent words with the store."""

    ITEM_WORDS, QUEUE_WORDS = 3, 2

    def __init__(self, items, starts, rows, queue, store):
        super().__init__(items, starts, rows, queue)
        self.store = store

    @classmethod
    def spare(cls, items=model.MAX_ITEMS, sets=model.MAX_SETS, queue=model.MAX_QUEUE, units=USABLE):
        """As a start leaves them, but for the first row."""
        words = model.Buffers.zeroed(0, sets, 0)
        return cls([0] * (3 * items), words.starts, words.rows, [0] * (2 * queue), [FILLER] * units)

    def copy(self):
        return Buffers(*(words[:] for words in self.words()))

    def words(self):
        return [*super().words(), self.store]

    def clear(self):
        super().clear()
        self.store[:self.unit_room] = [FILLER] * self.unit_room
        return FRESH

    @property
    def unit_room(self):
        return min(USABLE, len(self.store))

    def item(self, place):
        return Item(*self.items[3 * place:3 * place + 3])

    def words_of_items(self, items):
        return [word for item in items for word in (*item, item.handle)]

    def store_well_formed(self, state):
        used, room = state.used, self.unit_room
        if used > room or self.store[used:room] != [FILLER] * (room - used):
            return False
        found = heads(self.store[:used])
        return found is not None and all(self.item(place).handle in found for place in range(state.item_count))

    def step(self, grammar, state):
        return Step(grammar, state, self)


class Step(model.Step):
    """One position: its nodes too are written into units of its own, and into the lent ones only when nothing was refused."""

    def __init__(self, grammar, state, buffers):
        super().__init__(grammar, state, buffers)
        self.units, self.used = buffers.store[:buffers.unit_room], state.used
        self.link = None  # the node of the symbol that is being completed

    def write_node(self, *node):
        """The node's handle."""
        answer, behind = node_model.write(self.units, self.used, node)
        if answer == 11:
            raise model.Refused(FOREST_ROOM)
        assert answer == 0, "no node is unfit"
        handle, self.used = self.used, behind
        return handle

    def write_sum(self, origin, left_side, entries):
        """The Sum, and at once its Products in pop order."""
        pair = lambda place: (self.items[place][0], self.grammar.rules[self.items[place][1]][0])
        assert all(pair(place) != (origin, left_side) for place in self.queue), "what was queued of the pair is what was popped"
        handle = self.write_node("Sum", len(entries), left_side)
        for entry in entries:
            item, right = self.items[entry], None if entry.right == ALL_ONES else entry.right
            assert item.handle < handle and (right is None or right < handle), "a factor lies before its Sum"
            self.write_node("Product", item[1], item.handle, right)
        return handle

    def complete(self, k, symbol):
        """Called with each kind first, and then for each sum when its entries are popped: its node is due just before."""
        self.link = self.write_sum(*self.sums[-1]) if self.sums else self.write_node("Evaluated", symbol)
        super().complete(k, symbol)

    def store(self, item):
        super().store(Item(*item, self.link))

    def enqueue(self, place):
        """An item of an older set has its left factor already; a unary one has no other."""
        super().enqueue(Entry(place, self.link if place < self.state.item_count else ALL_ONES))

    def write(self, items, starts, row_words):
        state = super().write(items, starts, row_words)
        new = slice(self.state.used, self.used)
        self.buffers.store[new] = self.units[new]
        return State(*state, self.used)


begin, take, token, run, latest_set = model.begin, model.take, model.token, model.run, model.latest_set
take_position, kinds, run_kinds = model.take_position, model.kinds, model.run_kinds
expected, listing, latest_words, latest_records = model.expected, model.listing, model.latest_words, model.latest_records


def finished(file, state, buffers):
    """The answer, whether it is finished, and the handle of S's Sum, all ones where it is not or refused."""
    answer, yes = model.finished(file, state, buffers)
    return answer, yes, buffers.item(state.item_count - 1).handle if yes else ALL_ONES


def driver(data):
    return model.driver(data, Buffers.spare(sets=model.DRIVER_SETS))


# --------------------------------------------------------------------------------------------------- Trees of a store

def node_at(store, position):
    """The node with its head just there and the position behind it. A filler is no head."""
    if position >= min(USABLE, len(store)) or store[position] == FILLER:
        return None, position
    _, node, behind = node_model.read(store, position)
    return node, behind


def kind(store, position):
    node, _ = node_at(store, position)
    return node and node[0]


def summands(store, handle):
    """The count of the Sum at a handle, and its Products as (action, factors): those of the next nodes, so many, before the first other one."""
    (_, count, _), position = node_at(store, handle)
    products = []
    while len(products) < count:
        _, node, position = node_model.read(store, position)
        if node is None or node[0] != "Product":
            break
        products.append((node[1], [factor for factor in node[2:] if factor is not None]))
    return count, products


def sums_below(store, handle):
    """The Sums below a handle with one, in rising order, and those of them with a fault. A faulty one is looked through too."""
    below, faulty, due = {handle}, [], [handle]
    while due:
        here = due.pop()
        count, products = summands(store, here)
        factors = {factor for _, factors in products for factor in factors}
        if len(products) < count or any(factor >= here or kind(store, factor) not in ("Sum", "Evaluated") for factor in factors):
            faulty.append(here)
        more = {factor for factor in factors - below if factor < here and kind(store, factor) == "Sum"}
        below |= more
        due += more
    return sorted(below), sorted(faulty)


def counts_below(store, handle):
    """(0, the number of trees of each Sum below a handle), or (12, the lowest Sum with a fault)."""
    if kind(store, handle) != "Sum":
        return 12, handle
    below, faulty = sums_below(store, handle)
    if faulty:
        return 12, faulty[0]
    counts = {}
    for here in below:
        counts[here] = sum(prod(counts.get(factor, 1) for factor in factors) for _, factors in summands(store, here)[1])
    return 0, counts


def count(store, handle):
    """(0, the number of trees), (12, unit), or (23, None) where there are more than a u64 tells."""
    answer, counts = counts_below(store, handle)
    if answer:
        return answer, counts
    return (0, counts[handle]) if counts[handle] < 1 << 64 else (TOO_MANY_TREES, None)


def trees(store, handle, most):
    """The first trees of a handle without a fault, at most so many: each as a tuple of rule numbers and leaf symbols in preorder."""
    answer, place = count(store, handle)
    assert answer != 12, f"12 at {place}"
    return islice(trees_of(store, handle), most)


def trees_of(store, position):
    node, _ = node_at(store, position)
    if node[0] == "Evaluated":
        yield node[1:]
        return
    for action, factors in summands(store, position)[1]:
        left, right = factors[0], factors[1:]
        for front in trees_of(store, left):
            for back in trees_of(store, right[0]) if right else [()]:
                yield (action, *front, *back)


def chosen(store, counts, position, k):
    """The action of the k-th tree of a Sum, and its factors, each with the number of its tree."""
    for action, factors in summands(store, position)[1]:
        ways = [counts.get(factor, 1) for factor in factors]
        if k < prod(ways):
            return action, list(zip(factors, [k] if len(ways) == 1 else divmod(k, ways[1])))
        k -= prod(ways)


def tree(store, handle, k):
    """The k-th tree of a handle without a fault, by the numbers of trees alone, k from 0 and below the count."""
    _, counts = counts_below(store, handle)

    def words(position, k):
        if position not in counts:
            return node_at(store, position)[0][1:]
        action, parts = chosen(store, counts, position, k)
        return (action, *(word for part in parts for word in words(*part)))

    return words(handle, k)


def length(store, handle, k):
    """How many words it has; none are made, as a store may have one tree of more words than there is room for anywhere."""
    _, counts = counts_below(store, handle)

    @lru_cache(None)
    def words(position, k):
        return 1 if position not in counts else 1 + sum(words(*part) for part in chosen(store, counts, position, k)[1])

    return words(handle, k)


def tell(store, handle, k, place):
    """The k-th tree as the library's call tells it: the number, the count of words, the position of a 12 or None, and the place."""
    answer, counts = counts_below(store, handle)
    if answer:
        return answer, 0, counts, place
    if k >= counts[handle]:
        return NO_SUCH_TREE, 0, None, place
    words = length(store, handle, k)
    if words > len(place):
        return TOO_SHORT, words if words <= USABLE else (1 << 64) - 1, None, place
    return 0, words, None, [*tree(store, handle, k), *place[words:]]


# ------------------------------------------------------------------------------------------------ From the rules alone

class Derivations:
    """The derivations of a token string, by taking it apart by the rules. Nothing here knows of sets, items or nodes."""

    def __init__(self, grammar, string):
        self.grammar, self.string = grammar, tuple(string)
        self.count_of, self.list_of = lru_cache(None)(self.count_of), lru_cache(None)(self.list_of)

    def ways(self, symbol, first, behind):
        """Each rule of a symbol with each way to part a stretch of the string: the rule's number, and its symbols with their stretches."""
        for number, (left, one, two) in enumerate(self.grammar.rules):
            if left == symbol and two is None:
                yield number, [(one, first, behind)]
            elif left == symbol:
                yield from ((number, [(one, first, middle), (two, middle, behind)]) for middle in range(first + 1, behind))

    def count_of(self, symbol, first, behind):
        if symbol < self.grammar.tokens:
            return int(self.string[first:behind] == (symbol,))
        return sum(prod(self.count_of(*part) for part in parts) for _, parts in self.ways(symbol, first, behind))

    def list_of(self, symbol, first, behind):
        if symbol < self.grammar.tokens:
            return [(symbol,)] if self.string[first:behind] == (symbol,) else []
        found = []
        for number, parts in self.ways(symbol, first, behind):
            made = [(number,)]
            for part in parts:
                made = [front + back for front in made for back in self.list_of(*part)]
            found += made
        return found

    @property
    def whole(self):
        return self.grammar.rules[0][1], 0, len(self.string)

    def count(self):
        return self.count_of(*self.whole)

    def listed(self):
        """All of them, as words in preorder, in no order that means anything."""
        return self.list_of(*self.whole)
