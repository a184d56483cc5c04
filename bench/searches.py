"""Records lookups of a symbol in a set, and has them timed or counted.

    searches.py SEARCHES DIRECTORY [--instructions]    writes NAME.lookups to the directory, and prints a table of docs/SPEED.md

A lookup is a set's items and a symbol: one for each pair that a parse completes and whose symbol is in the set's row.
"""

import os
import random
import re
import subprocess
import sys
import tempfile
from itertools import islice

import inputs
import model

NO_HANDLE = 0  # no search looks at one
MOST = 10000  # lookups of a mix
SEED = 13

WAYS = {
    "scan_scan": "scan, scan",
    "threshold_scan": "the crate's",
    "halves_scan": "halves, scan",
    "halves_halves": "halves, halves",
    "halves_bounded": "halves, bounded",
    "halves_gallop": "halves, gallop",
    "gallop_gallop": "gallop, gallop",
    "branchless_scan": "branchless, scan",
    "branchless_branchless": "branchless, branchless",
}


class Recording(model.Step):
    """A token that keeps its lookups."""

    def __init__(self, lookups, *parse):
        super().__init__(*parse)
        self.lookups = lookups

    def complete(self, k, symbol):
        if self.buffers.row(k) & model.bit(symbol):
            self.lookups.append((tuple(self.items[self.buffers.starts[k]:self.buffers.starts[k + 1]]), symbol))
        super().complete(k, symbol)


def parsed(file, sentences):
    """The rules, and the lookups of parses of the sentences, up to MOST."""
    answer, grammar = model.check(file)
    assert answer == 0
    lookups = []
    for sentence in sentences:
        buffers = model.Buffers.zeroed()
        _, state = model.begin(file, model.FRESH, buffers)
        for token in sentence:
            if len(lookups) >= MOST:
                return grammar.rules, lookups[:MOST]
            assert buffers.row(state.set_number) & model.bit(token)
            step = Recording(lookups, grammar, state, buffers)
            step.complete(state.set_number, token)
            step.complete_sums()
            state = step.advance()
    return grammar.rules, lookups


def operators(levels, rng):
    """Expressions with so many levels of operators that join to the left."""
    blocks = [f"e{k}: e{k} OPERATOR{k} e{k + 1} | e{k + 1}" for k in range(levels)]
    file, tokens = inputs.read_grammar("\n".join(blocks + [f"e{levels}: OPEN e0 CLOSE | VALUE"]))
    number = {name: k for k, name in enumerate(tokens)}

    def expression(depth):
        made = []
        for _ in range(rng.randint(1, 8)):
            inner = depth < 3 and rng.random() < 0.2
            made += [number["OPEN"], *expression(depth + 1), number["CLOSE"]] if inner else [number["VALUE"]]
            made.append(number[f"OPERATOR{rng.randrange(levels)}"])
        return made[:-1]

    return parsed(file, [expression(0) for _ in range(1000)])


def ambiguous():
    """S ::= S S | 0, 40 tokens."""
    return parsed(model.make_file(4, 1, [(2, 1, 3), (1, 1, 1), (1, 0, None)]), [[0] * 40])


def kinds(count, rng):
    """S ::= S P | P, P ::= 0 X_i, X_i ::= i: after a 0 the set holds an item for each kind."""
    s, p, x = count + 1, count + 2, count + 2
    rules = [(2 * count + 3, s, 2 * count + 4), (s, s, p), (s, p, None)]
    rules += [(p, 0, x + i) for i in range(1, count + 1)] + [(x + i, i, None) for i in range(1, count + 1)]
    sentence = [token for _ in range(MOST) for token in (0, rng.randint(1, count))]
    return parsed(model.make_file(2 * count + 5, count + 1, rules), [sentence])


def one_set(seconds, rules_each, origins, rng):
    """A set with so many items of each second, and lookups of symbols: as many that are there as not."""
    rules = [(0, 0, 2 * second + 1) for second in range(seconds) for _ in range(rules_each)]
    rng.shuffle(rules)
    order = sorted((rule[2], number, origin) for number, rule in enumerate(rules) for origin in range(origins))
    items = tuple((origin, number) for _, number, origin in order)
    return rules, [(items, rng.randrange(2 * seconds)) for _ in range(MOST)]


def mixes():
    """Name, label, rules and lookups."""
    for name, file, short, long_one, _ in islice(inputs.inputs(random.Random(inputs.SEED)), 3):  # the mix of C-13, which had no policy
        yield name, f"{name}, long sentence", *parsed(file, [long_one])
        if name == "a":
            yield "a-short", "a, short sentences", *parsed(file, short)
    rng = random.Random(SEED)
    yield "levels-12", "12 levels of operators", *operators(12, rng)
    yield "levels-60", "60 levels of operators", *operators(60, rng)
    yield "ambiguous", "S ::= S S \\| 0", *ambiguous()
    yield "kinds", "250 kinds of P", *kinds(250, rng)
    yield "differ-64", "64 seconds that differ", *one_set(64, 1, 1, rng)
    yield "differ-1024", "1,024 that differ", *one_set(1024, 1, 1, rng)
    yield "equal", "256, sixteen of each", *one_set(256, 8, 2, rng)


def write(path, rules, lookups):
    """Each set once, one behind the other."""
    places, items, lines = {}, [], []
    for found, symbol in lookups:
        first = places.setdefault(found, len(items))
        if first == len(items):
            items += found
        lines.append((first, first + len(found), symbol))
    words = [model.NO_SECOND if word is None else word for rule in rules for word in rule]
    with open(path, "w") as out:
        for line in [words, [word for item in items for word in (*item, NO_HANDLE)], *lines]:
            out.write(" ".join(map(str, line)) + "\n")


def shape(rules, lookups):
    """Mean size of a set, and mean number of items found and of items before these."""
    seconds = [[rules[rule][2] for _, rule in items] for items, _ in lookups]
    found = sum(there.count(symbol) for there, (_, symbol) in zip(seconds, lookups))
    before = sum(sum(second < symbol for second in there) for there, (_, symbol) in zip(seconds, lookups))
    return [total / len(lookups) for total in (sum(map(len, seconds)), found, before)]


def ran(words):
    done = subprocess.run(words, capture_output=True, text=True)
    if done.returncode != 0:
        sys.exit(f"{' '.join(words)} failed:\n{done.stderr.strip()}")
    return done.stdout


def nanoseconds(searches, path, _):
    return {way: float(told) for way, told in map(str.split, ran([searches, path]).splitlines())}


def instructions(searches, path, count):
    """Those of each way's own function: what it calls is inlined."""
    with tempfile.TemporaryDirectory() as scratch:
        told = os.path.join(scratch, "out")
        ran(["valgrind", "--tool=callgrind", f"--callgrind-out-file={told}", searches, path, "check"])
        lines = ran(["callgrind_annotate", "--threshold=100", "--show-percs=no", told])
    spent = re.findall(r"^ *([\d,]+) +\S*searches::(\w+)", lines, re.M)
    return {way: int(number.replace(",", "")) / count for number, way in spent if way in WAYS}


def main():
    searches, directory, *rest = sys.argv[1:]
    measure = instructions if rest else nanoseconds
    print("|", " | ".join(["", "set, found, before", *WAYS.values()]), "|\n|" + "---|" * (len(WAYS) + 2), flush=True)
    for name, label, rules, lookups in mixes():
        path = os.path.join(directory, name + ".lookups")
        write(path, rules, lookups)
        spent = measure(searches, path, len(lookups))
        size, found, before = shape(rules, lookups)
        figures = [f"{spent[way]:.1f}" if spent[way] < 100 else f"{spent[way]:.0f}" for way in WAYS]
        print("|", " | ".join([label, f"{size:.1f}, {found:.1f}, {before:.1f}", *figures]), "|", flush=True)


main()
