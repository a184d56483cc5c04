#!/usr/bin/env python3
"""Random written grammars and damaged ones: every translator there is beside the plain one, and the plain one beside the written rules alone.

    translations.py SEED GRAMMARS LEAST

GRAMMARS random inputs from SEED; each number 0 and 16 to 21 must have come LEAST times at least. The same bytes and the same refusals are
wanted of all. On small grammars what was answered is then looked at by brute force over the written rules: what a list of symbols becomes is
listed as far as it is asked for, so nothing here marks, counts or numbers a symbol; and the recognizer reads short strings by the file. And every file must be one that the check takes, with all
of its nonterminals reachable.
"""

import itertools
import random
import sys

import asserting  # noqa: F401
import forest_model as forest
import grammar_check
import library
import translate
from translate import Written
from translated_numbers import PLENTY, TRANSLATORS

# Strings of at most so many tokens are listed, and of at most so many read by the recognizer.
LONGEST, LONGEST_READ = 4, 3

# Room for all that is read here.
ITEMS, SETS, QUEUE, UNITS = 400, 8, 200, 2000


# ------------------------------------------------------------------------------------------------- From the rules alone

class Becoming:
    """The short lists of symbols that each symbol becomes, and the short token strings that it derives: least solutions of what the rules
    say, listed."""

    def __init__(self, symbols, rules, tokens):
        self.symbols, self.rules = symbols, rules
        self.lists = self.solve({x: {(x,)} for x in range(symbols)}, 1)
        self.strings = self.solve({x: {(x,)} if x < tokens else set() for x in range(symbols)}, LONGEST)

    def solve(self, found, longest):
        changed = True
        while changed:
            changed = False
            for left, right in self.rules:
                more = self.joined(right, found, longest) - found[left]
                if more:
                    found[left] |= more
                    changed = True
        return found

    @staticmethod
    def joined(right, found, longest):
        lists = {()}
        for symbol in right:
            lists = {a + b for a in lists for b in found[symbol] if len(a) + len(b) <= longest}
        return lists

    def derives_itself(self):
        return any((left,) in self.joined(right, self.lists, 1) for left, right in self.rules)


def least_lengths(grammar):
    """The length of a shortest token string of each symbol that has one, and of a shortest that is not empty."""
    least, filled = ({token: 1 for token in range(grammar.tokens)} for _ in range(2))
    before = None
    while before != (least, filled):
        before = dict(least), dict(filled)
        for left, right in grammar.rules:
            if all(symbol in least for symbol in right):
                length = sum(least[symbol] for symbol in right)
                least[left] = min(length, least.get(left, length))
                for symbol in right:
                    if symbol in filled:
                        more = length - least[symbol] + filled[symbol]
                        filled[left] = min(more, filled.get(left, more))
    return least, filled


def reachable(start, steps):
    found = {start}
    for _ in range(len(steps) + 1):
        found |= {symbol for left, right in steps if left in found for symbol in right}
    return found


def reads_exactly(file, tokens, strings):
    """The recognizer, over the file, finishes exactly on these of the short strings that are not empty."""
    lent_file, lent = library.File(file), library.Lent(forest.Buffers.spare(ITEMS, SETS, QUEUE, UNITS))
    for length in range(1, LONGEST_READ + 1):
        for string in itertools.product(range(tokens), repeat=length):
            answer, state = library.begin(lent_file, forest.FRESH, lent)
            assert answer == 0
            answer, state, taken = library.run(lent_file, state, lent, string)
            assert answer in (0, 6), (answer, file.hex(), string)
            assert (answer == 0 and library.finished(lent_file, state, lent)[:2] == (0, True)) == (string in strings), (file.hex(), string)


def judge(grammar, number, file, empty):
    """What was answered, beside the rules alone. Grammars of a few symbols only."""
    nonterminals = set(range(grammar.tokens, grammar.end))
    becoming = Becoming(grammar.end, grammar.rules, grammar.tokens)
    least, filled = least_lengths(grammar)
    circular = becoming.derives_itself()
    barren = not nonterminals <= set(least)
    lost = not nonterminals <= reachable(grammar.start, grammar.rules)
    strings = becoming.strings[grammar.start]
    if number == translate.CIRCULAR:
        assert circular
        return
    assert not circular
    if number == translate.BARREN:
        assert barren
        return
    assert not barren
    if number == translate.UNREACHABLE:
        assert lost
        return
    assert not lost
    if number == translate.NO_SENTENCE:
        assert grammar.start not in filled and strings == {()}
        return
    assert number == 0 and grammar.start in filled
    assert empty == (() in strings)
    symbols, tokens, rules = grammar_check.parse(file)
    assert tokens == grammar.tokens
    plain = [(a, [b] if c == translate.NONE else [b, c]) for a, b, c in rules[1:]]
    assert Becoming(symbols, plain, tokens).strings[rules[0][1]] == strings - {()}
    reads_exactly(file, tokens, strings)
    kept = len(nonterminals & set(filled))
    assert symbols - tokens - 2 - kept <= sum(max(0, len(right) - 2) for left, right in grammar.rules)
    assert len(rules) - 1 <= sum(3 * len(right) for left, right in grammar.rules)


def is_taken(file):
    """The file passes the check, and every nonterminal of it is reachable."""
    parsed = grammar_check.parse(file)
    assert parsed and grammar_check.accepted(*parsed), file.hex()
    symbols, tokens, rules = parsed
    steps = [(a, [b] if c == translate.NONE else [b, c]) for a, b, c in rules]
    assert set(range(tokens, symbols - 2)) <= reachable(rules[0][1], steps), file.hex()


# ------------------------------------------------------------------------------------------------- Random grammars

def some(rng, tokens, nonterminals, rules, lengths):
    """Rules of any kind."""
    end = tokens + nonterminals
    return Written(tokens, nonterminals, tokens + rng.randrange(nonterminals),
                   [(tokens + rng.randrange(nonterminals), [rng.randrange(end) for _ in range(rng.choice(lengths))]) for _ in range(rules)])


def likely(rng, tokens, nonterminals, rules, lengths):
    """Rules that are mostly accepted: each nonterminal is reached from one before it, names mostly later ones, and ends."""
    grammar = some(rng, tokens, nonterminals, 0, lengths)
    order = list(range(tokens, tokens + nonterminals))
    rng.shuffle(order)

    def right(place):
        behind = order[place + 1:]
        return [rng.choice(behind) if behind and rng.random() < 0.5 else rng.randrange(tokens) for _ in range(rng.choice(lengths))]

    for place, left in enumerate(order):
        if place:
            above = rng.randrange(place)
            spliced = right(above)
            spliced.insert(rng.randint(0, len(spliced)), left)
            grammar.rules.append((order[above], spliced[:translate.MAX_PLACES]))
        grammar.rules.append((left, right(place) if rng.random() < 0.6 else []))
    for _ in range(rules):
        place = rng.randrange(nonterminals)
        symbols = right(place)
        if rng.random() < 0.2:  # a way back, not alone
            symbols = [rng.choice(order), rng.randrange(tokens)] + symbols
            rng.shuffle(symbols)
        grammar.rules.append((order[place], symbols[:translate.MAX_PLACES]))
    rng.shuffle(grammar.rules)
    grammar.start = order[0]
    return grammar


def small(rng):
    make = likely if rng.random() < 0.8 else some
    return make(rng, rng.randint(1, 3), rng.randint(1, 4), rng.randint(0, 6), (0, 1, 1, 2, 2, 3, 4))


def large(rng):
    return likely(rng, rng.randint(1, 60), rng.randint(1, 120), rng.randint(0, 150), (0, 1, 2, 3, 4, 5, 9, 15))


def damaged(rng):
    """The bytes of a grammar with a byte changed, lost or added."""
    written = bytearray(small(rng).bytes())
    place = rng.randrange(len(written))
    kind = rng.randrange(4)
    if kind == 0:
        written[place] = rng.choice((0, 1, 2, 3, 4, 5, 16, 17, 255))
    elif kind == 1:
        del written[place:place + rng.randint(1, 4)]
    elif kind == 2:
        written[place:place] = bytes(rng.randrange(4) for _ in range(rng.randint(1, 4)))
    else:
        written[1 + rng.randrange(min(8, len(written) - 1))] = rng.randrange(6)
    return bytes(written)


def main(seed, grammars, least):
    rng = random.Random(seed)
    numbers = {number: 0 for number in (0, *range(16, 22))}
    empties = judged = 0
    for place in range(grammars):
        kind = rng.random()
        grammar = small(rng) if kind < 0.6 else large(rng) if kind < 0.65 else None
        written = damaged(rng) if grammar is None else grammar.bytes()
        lent = PLENTY if rng.random() < 0.97 else rng.randrange(60)
        answer = translate.translate(written, lent)
        for name, other in TRANSLATORS.items():
            assert other(written, lent) == answer, (name, lent, written.hex())
        number, file, empty = answer
        numbers[number] += 1
        empties += bool(empty)
        if file is not None:
            is_taken(file)
        read = translate.read(written)
        if read is not None and read.end <= 8 and len(read.rules) <= 16 and number not in (translate.MALFORMED, translate.NO_ROOM):
            judged += 1
            judge(read, *answer)
    print("written grammars:", ", ".join(f"{number} {count}" for number, count in numbers.items()), f"with the empty sentence {empties}, by brute force {judged}")
    assert all(count >= least for count in numbers.values()), "too few of a number"
    assert empties >= least and judged >= least


if __name__ == "__main__":
    main(*map(int, sys.argv[1:4]))
