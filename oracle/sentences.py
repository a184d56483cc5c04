#!/usr/bin/env python3
"""The built library beside the rules alone: which strings are sentences, and with which a sentence begins.

    sentences.py SEED GRAMMARS

Every grammar of some small shapes, then GRAMMARS random ones from SEED. On every token string up to some length: the token is refused
6 exactly when no sentence begins so, the expected tokens are exactly the others, and finished is said exactly of the sentences. Nothing
here knows of sets, items or predictions: a string is derived by taking it apart by the rules. For small grammars the sentences are also
listed, and the listing agrees. Then large grammars, in which a string goes on with few of the tokens.
"""

import ctypes
import itertools
import random
import sys

import forest_model as forest
import generate
import library
import model

# Room for all that is read here, so that no token meets a room refusal.
ITEMS, SETS, QUEUE, UNITS = 1500, 12, 300, 8000

# Large grammars: of so many symbols, with up to so many rules. So many tokens are tried behind a string that are expected there, and as many
# others.
LARGE, LARGE_RULES, LARGE_TRIED, LARGE_LONGEST = (400, model.MAX_SYMBOLS), 700, 2, 3


# ------------------------------------------------------------------------------------------------- From the rules alone

class Rules:
    """What the symbols of a grammar derive. Each question is answered by the least solution of what the rules say."""

    def __init__(self, grammar):
        self.grammar = grammar
        self.derived, self.begun = {}, {}
        self.by_left = {}
        for left, first, second in grammar.rules[1:]:
            self.by_left.setdefault(left, []).append((first, second))

    def derives(self, string):
        """The symbols that derive a string that is not empty."""
        if string not in self.derived:
            found = {string[0]} if len(string) == 1 else set()
            splits = [(self.derives(string[:k]), self.derives(string[k:])) for k in range(1, len(string))]
            self.derived[string] = self.close(found, lambda first, second: any(first in a and second in b for a, b in splits), lambda first: False)
        return self.derived[string]

    def begins(self, string):
        """The symbols that derive a string beginning with this one. Every symbol derives some string, so that whatever comes behind what
        is asked for can be filled in."""
        if string not in self.begun:
            found = {string[0]} if len(string) == 1 else set()
            splits = [(self.derives(string[:k]), self.begins(string[k:])) for k in range(1, len(string))]
            self.begun[string] = self.close(found, lambda first, second: any(first in a and second in b for a, b in splits), lambda first: True)
        return self.begun[string]

    def close(self, found, splits, reaches_past):
        """Adds left sides until no rule gives another: A ::= B from B; A ::= B C by a split, or from B alone where C lies past the string."""
        changed = True
        while changed:
            changed = False
            for left, rights in self.by_left.items():
                if left not in found and any(
                        first in found and (second is None or reaches_past(first)) or second is not None and splits(first, second)
                        for first, second in rights):
                    found.add(left)
                    changed = True
        return found

    @property
    def start(self):
        return self.grammar.rules[0][1]

    def is_sentence(self, string):
        return bool(string) and self.start in self.derives(string)

    def is_begun(self, string):
        return self.start in self.begins(string)


def listed(grammar, longest):
    """All strings up to a length that each symbol derives, listed by applying the rules over and over."""
    strings = {symbol: {(symbol,)} if symbol < grammar.tokens else set() for symbol in range(grammar.symbols - 2)}
    changed = True
    while changed:
        changed = False
        for left, first, second in grammar.rules[1:]:
            tails = [()] if second is None else strings[second]
            more = {a + b for a in strings[first] for b in tails if len(a) + len(b) <= longest} - strings[left]
            strings[left] |= more
            changed |= bool(more)
    return strings[grammar.rules[0][1]]


# ---------------------------------------------------------------------------------------------------------- Compared

class Library:
    """A parse in the library's words, which can go back to an earlier state."""

    def __init__(self, file):
        self.file = library.File(file)
        self.lent = library.Lent(forest.Buffers.spare(ITEMS, SETS, QUEUE, UNITS))
        answer, self.state = library.begin(self.file, forest.FRESH, self.lent)
        assert answer == 0

    def mark(self):
        return self.state, [bytes(part) for part, _ in self.lent.parts]

    def back_to(self, mark):
        self.state, words = mark
        for (part, _), content in zip(self.lent.parts, words):
            ctypes.memmove(part, content, len(content))

    def token(self, token):
        answer, self.state = library.token(self.file, self.state, self.lent, token)
        return answer

    def finished(self):
        answer, yes, _ = library.finished(self.file, self.state, self.lent)
        assert answer == 0
        return yes

    def expected(self, tokens):
        place = [0] * tokens
        answer, count = library.expected(self.file, self.state, self.lent, place)
        assert answer == 0
        return place[:count]


def wrong(file, string, what):
    raise SystemExit(f"{file.hex()}, tokens {list(string)}: {what}")


def compare(file, grammar, longest, counts, some=lambda tokens: tokens):
    """Strings up to a length, prefix by prefix, depth first: all, or those that go on with some of the tokens."""
    rules, parse = Rules(grammar), Library(file)
    listing = listed(grammar, longest + 2) if longest <= 4 and grammar.tokens <= 2 and len(grammar.rules) <= 4 else None

    def visit(string):
        if parse.finished() != rules.is_sentence(string):
            wrong(file, string, f"finished says {parse.finished()}")
        counts["sentences"] += parse.finished()
        if listing is not None and string and rules.is_sentence(string) != (string in listing):
            wrong(file, string, "the listing has another answer")
        if len(string) == longest:
            return
        here, goes_on = parse.mark(), [token for token in range(grammar.tokens) if rules.is_begun(string + (token,))]
        if parse.expected(grammar.tokens) != goes_on:
            wrong(file, string, f"expected {parse.expected(grammar.tokens)}, but a sentence goes on with {goes_on}")
        counts["expected"] += len(goes_on)
        counts["nothing expected"] += not goes_on
        for token in some(goes_on) + some([token for token in range(grammar.tokens) if token not in goes_on]):
            longer = string + (token,)
            answer, viable = parse.token(token), token in goes_on
            if answer != (0 if viable else 6):
                wrong(file, longer, f"answer {answer}, but a sentence begins so: {viable}")
            if listing is not None and not viable and any(sentence[:len(longer)] == longer for sentence in listing):
                wrong(file, longer, "the listing has a sentence that begins so")
            counts["accepted" if viable else "refused 6"] += 1
            if viable:
                visit(longer)
                parse.back_to(here)

    visit(())
    counts["grammars"] += 1


def shapes():
    """Every grammar of these shapes, in every order of rules: tokens, nonterminals, rules besides the first, length of strings."""
    for tokens, nonterminals, count, longest in [(1, 1, 1, 5), (1, 1, 2, 5), (1, 1, 3, 5), (2, 1, 2, 4), (2, 1, 3, 4), (1, 2, 2, 4), (1, 2, 3, 4)]:
        symbols = tokens + nonterminals + 2
        rights = [(first, second) for first in range(symbols - 2) for second in [None, *range(symbols - 2)]]
        rules = [(left, first, second) for left in range(tokens, symbols - 2) for first, second in rights]
        for chosen in itertools.permutations(rules, count):
            file = model.make_file(symbols, tokens, [(symbols - 2, tokens, symbols - 1), *chosen])
            yield file, longest


def all_small(counts):
    for file, longest in shapes():
        answer, grammar = model.check(file)
        if library.check(library.File(file)) != answer:
            wrong(file, (), f"the check is not {answer}")
        counts["files refused by the check"] += answer != 0
        if answer == 0:
            compare(file, grammar, longest, counts)


def random_ones(rng, grammars, counts):
    for _ in range(grammars):
        file, grammar = generate.small_grammar(rng)
        compare(file, grammar, {1: 9, 2: 6, 3: 5}[grammar.tokens], counts)


def large_ones(rng, counts):
    some = lambda tokens: rng.sample(tokens, min(len(tokens), LARGE_TRIED))
    for symbols in LARGE:
        file, grammar = generate.largest_grammar(rng, symbols, LARGE_RULES)
        compare(file, grammar, LARGE_LONGEST, counts, some)


COMPARED = ["accepted", "refused 6", "expected"]
BY_SMALL_ONES = ["nothing expected", "sentences"]


def main():
    seed, grammars = int(sys.argv[1]), int(sys.argv[2])
    for name, work, compared in [
            ("every grammar of the shapes", all_small, COMPARED + BY_SMALL_ONES),
            ("random grammars", lambda counts: random_ones(random.Random(seed), grammars, counts), COMPARED + BY_SMALL_ONES),
            ("large grammars", lambda counts: large_ones(random.Random(seed), counts), COMPARED)]:
        counts = dict.fromkeys(["grammars", "files refused by the check", *COMPARED, *BY_SMALL_ONES], 0)
        work(counts)
        print(f"{name}: " + ", ".join(f"{what} {count}" for what, count in counts.items() if count))
        missing = [what for what in ("grammars", *compared) if not counts[what]]
        if missing:
            raise SystemExit(f"{name}: nothing was compared of: {', '.join(missing)}")


if __name__ == "__main__":
    main()
