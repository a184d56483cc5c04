"""The streams of numbers that the oracle's programs read and the recorded vectors hold. README.md describes them."""

import os
import subprocess
from collections import namedtuple

import model

HERE = os.path.dirname(os.path.abspath(__file__))
PROGRAMS = os.path.join(os.path.dirname(HERE), "target", "oracle")
VECTORS = os.path.join(HERE, "vectors")

FROM_START, FROM_WELL_FORMED, FROM_ANY_SHAPE = 0, 1, 2
RESET, AND_NEXT = 0xFFFFFFFF, 1 << 31
PUSH, POP = 0, 1

# A whole state. finished: 1 or 0; items: (origin, rule) each; rows: one number each, symbol s being bit s.
Chart = namedtuple("Chart", "set_number finished items starts rows")
# The answer to a token. room: the most items and queued entries at a time; sums: (origin, left side, places in pop order).
# Refused, there is only the number.
Answer = namedtuple("Answer", "number room sums chart", defaults=[None, [], None])
# A run of tokens from the start, or from a chart. any_shape: the chart's lists may have any length. A token may be a list: the kinds of one position.
Case = namedtuple("Case", "file chart any_shape tokens")


def run_program(program, mode, numbers):
    text = " ".join(map(str, numbers))
    quiet = dict(os.environ, RUST_BACKTRACE="0")
    return subprocess.run([os.path.join(PROGRAMS, program), mode], input=text, capture_output=True, text=True, env=quiet)


def ask(program, mode, numbers):
    """The program's answer as a list of numbers. A program that fails is an error."""
    done = run_program(program, mode, numbers)
    if done.returncode != 0:
        raise AssertionError(f"{program} {mode} failed: {done.stderr.strip()}")
    return [int(word) for word in done.stdout.split()]


class Numbers:
    """Reads a list of numbers from the front."""

    def __init__(self, numbers):
        self.numbers, self.at = numbers, 0

    def __bool__(self):
        return self.at < len(self.numbers)

    def next(self):
        return self.list(1)[0]

    def list(self, count):
        if not 0 <= count <= len(self.numbers) - self.at:
            raise AssertionError(f"the stream ends before {count} more numbers, at number {self.at}")
        self.at += count
        return self.numbers[self.at - count:self.at]

    def items(self, count):
        words = self.list(2 * count)
        return list(zip(words[::2], words[1::2]))

    def rows(self, count):
        return [model.row_of(self.list(model.ROW_WORDS)) for _ in range(count)]


def flat(lists):
    return [number for numbers in lists for number in numbers]


def row_words(rows):
    return flat(model.words_of(row) for row in rows)


# ---------------------------------------------------------------------------------------------------------- States

def case_numbers(case):
    numbers = [len(case.file), *case.file]
    if case.chart is None:
        numbers.append(FROM_START)
    else:
        chart = case.chart
        numbers += [FROM_ANY_SHAPE if case.any_shape else FROM_WELL_FORMED, chart.set_number, len(chart.items), *flat(chart.items)]
        if case.any_shape:
            numbers += [len(chart.starts), len(chart.rows)]
        numbers += [*chart.starts, *row_words(chart.rows)]
    tokens = flat(map(position_numbers, case.tokens))
    return numbers + [len(tokens), *tokens]


def position_numbers(token):
    """A token, or each kind of a position: all but the last say that another one follows."""
    if isinstance(token, int):
        return [token]
    return [kind | AND_NEXT for kind in token[:-1]] + token[-1:]


def read_case(numbers):
    file = bytes(numbers.list(numbers.next()))
    chart, kind = None, numbers.next()
    if kind == FROM_WELL_FORMED:
        set_number = numbers.next()
        items = numbers.items(numbers.next())
        chart = Chart(set_number, None, items, numbers.list(set_number + 2), numbers.rows(set_number + 1))
    elif kind != FROM_START:
        raise AssertionError(f"recorded cases have no state of kind {kind}")
    return Case(file, chart, False, numbers.list(numbers.next()))


def chart_numbers(chart):
    return [chart.set_number, int(chart.finished), len(chart.items), *flat(chart.items), *chart.starts, *row_words(chart.rows)]


def read_chart(numbers):
    set_number, finished = numbers.list(2)
    items = numbers.items(numbers.next())
    return Chart(set_number, finished, items, numbers.list(set_number + 2), numbers.rows(set_number + 1))


def read_answers(numbers, case):
    """The chart before the tokens, and the answer to each token."""
    before = read_chart(numbers)
    answers = []
    for token in case.tokens:
        if token == RESET:
            answers.append(Answer(0, chart=read_chart(numbers)))
        elif number := numbers.next():
            answers.append(Answer(number))
        else:
            room = tuple(numbers.list(2))
            sums = []
            for _ in range(numbers.next()):
                origin, left = numbers.list(2)
                sums.append((origin, left, numbers.list(numbers.next())))
            answers.append(Answer(0, room, sums, read_chart(numbers)))
    return before, answers


def ask_states(cases, program="recognize"):
    """For each case the charts and answers of the Rust."""
    numbers = Numbers(ask(program, "states", [number for case in cases for number in case_numbers(case)]))
    answers = [read_answers(numbers, case) for case in cases]
    assert not numbers, "the program told more than was asked"
    return answers


# --------------------------------------------------------------------------------------------------------- Forests

NO_NODE = 0xFFFFFFFF

# What the recognizer tells its forest at a token. leaf: the number of its node, also where it is refused; sums: (origin, left side, node,
# summands), a summand being (rule, left node, right node or NO_NODE); finished: a node or NO_NODE; nodes: of each item after the token.
Told = namedtuple("Told", "number leaf sums finished nodes", defaults=[[], NO_NODE, []])
# The crate's own forest after a token. below: for each handle below the finished one, a leaf's symbol, or (whether there is a Sum, summands), a
# summand being (action, factors).
Grown = namedtuple("Grown", "number finished below", defaults=[NO_NODE, {}])


def read_told(numbers):
    number, leaf = numbers.list(2)
    if number:
        return Told(number, leaf)
    sums = []
    for _ in range(numbers.next()):
        origin, left, node = numbers.list(3)
        sums.append((origin, left, node, [tuple(numbers.list(3)) for _ in range(numbers.next())]))
    return Told(number, leaf, sums, numbers.next(), numbers.list(numbers.next()))


def ask_told(cases, program="recognize"):
    """For each case what the Rust's forest was told at each token."""
    numbers = Numbers(ask(program, "told", [number for case in cases for number in case_numbers(case)]))
    told = [[read_told(numbers) for _ in case.tokens] for case in cases]
    assert not numbers, "the program told more than was asked"
    return told


def read_below(numbers):
    below = {}
    for _ in range(numbers.next()):
        handle, inner = numbers.list(2)
        if not inner:
            below[handle] = numbers.next()
            continue
        has_sum, count = numbers.list(2)
        summands = [numbers.list(3) for _ in range(count)]
        below[handle] = (bool(has_sum), [(action, [left] if right == NO_NODE else [left, right]) for action, left, right in summands])
    return below


def read_grown(numbers):
    number = numbers.next()
    if number:
        return Grown(number)
    finished = numbers.next()
    return Grown(number, finished, {} if finished == NO_NODE else read_below(numbers))


def ask_bocage(cases, program="bocage_written_order"):
    """For each case, from the start, the forest of the Rust after each token, and the units of its store at last."""
    numbers = Numbers(ask(program, "stores", [number for case in cases for number in case_numbers(case)]))
    grown = [([read_grown(numbers) for _ in case.tokens], numbers.list(numbers.next())) for case in cases]
    assert not numbers, "the program told more than was asked"
    return grown


# ------------------------------------------------------------------------------------------------------------ Heap

HeapCase = namedtuple("HeapCase", "items operations")  # operations: (PUSH, place) or (POP,)


def heap_numbers(case):
    return [len(case.items), *flat(case.items), len(case.operations), *flat(case.operations)]


def read_heap(numbers):
    items = numbers.items(numbers.next())
    operations = []
    for _ in range(numbers.next()):
        operations.append((POP,) if numbers.next() == POP else (PUSH, numbers.next()))
    return HeapCase(items, operations)


def pops(case):
    return sum(1 for operation in case.operations if operation == (POP,))


# ----------------------------------------------------------------------------------------------------------- Nodes

def node_numbers(node):
    if isinstance(node, model.Sum):
        return [0, node.count, node.nonterminal, 0, 0]
    if isinstance(node, model.Product):
        return [1, node.action, node.left, int(node.right is not None), node.right or 0]
    return [2 if isinstance(node, model.NullingLeaf) else 3, node.symbol, 0, 0, 0]


def read_node(numbers):
    kind, a, b, c, d = numbers.list(5)
    if kind == 0:
        return model.Sum(a, b)
    if kind == 1:
        return model.Product(a, b, d if c else None)
    return model.NullingLeaf(a) if kind == 2 else model.Evaluated(a)


def ask_write(places, program="nodes_written_order"):
    """The Rust's units for each (position, node)."""
    numbers = Numbers(ask(program, "write", [n for position, node in places for n in [position, *node_numbers(node)]]))
    return [numbers.list(numbers.next()) for _ in places]


def ask_read(stores, program="nodes_written_order"):
    """The Rust's nodes, each with the position behind it, for each (units, position)."""
    numbers = Numbers(ask(program, "read", [n for units, position in stores for n in [len(units), *units, position]]))
    return [[(read_node(numbers), numbers.next()) for _ in range(numbers.next())] for _ in stores]
