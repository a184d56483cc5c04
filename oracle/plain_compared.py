#!/usr/bin/env python3
"""The plain engine beside the rules alone and beside the main engine.

    plain_compared.py PROGRAM SEED GRAMMARS INPUTS

Every grammar of some small shapes, then GRAMMARS random ones from SEED: on every token string up to length 6 (9 over one token, 5 over three) the built
library's plain engine, its main engine and the rules alone agree, and every word of the table is what the rules give. Then INPUTS random inputs of the
program, beside the lines that the rules and the model of the main engine give."""

import itertools
import random
import sys

import forest_model as forest
import generate
import library
import model
import plain_engine
import sentences
from plain_engine import input_of, needed, plain_of_library

ITEMS, SETS, QUEUE, UNITS = 1500, 12, 300, 8000
LONGEST = {1: 9, 2: 6, 3: 5}
RUBBISH = 0x1234_5678_9ABC_DEF0


class Main:
    """The library's main engine: all tokens taken and finished."""

    def __init__(self, file):
        self.file, self.lent = library.File(file), library.Lent(forest.Buffers.spare(ITEMS, SETS, QUEUE, UNITS))

    def says(self, tokens):
        answer, state = library.begin(self.file, forest.FRESH, self.lent)
        assert answer == 0
        answer, state, taken = library.run(self.file, state, self.lent, tokens)
        assert answer in (0, 6), f"answer {answer}"
        return taken == len(tokens) and library.finished(self.file, state, self.lent)[1]


def strings(grammar, longest):
    return (list(string) for length in range(longest + 1) for string in itertools.product(range(grammar.tokens), repeat=length))


def compare(file, grammar, longest, counts):
    rules, main = sentences.Rules(grammar), Main(file)
    for tokens in strings(grammar, longest):
        lent = [RUBBISH] * (needed(len(tokens)) + 1)
        wanted, got = plain_engine.plain(file, tokens, lent, rules), plain_of_library(file, tokens, lent)
        if got != wanted:
            raise SystemExit(f"{file.hex()}, tokens {tokens}: wanted {wanted}, got {got}")
        if main.says(tokens) != bool(wanted[1]):
            raise SystemExit(f"{file.hex()}, tokens {tokens}: the main engine says {main.says(tokens)}, the plain one {wanted[1]}")
        counts["strings"] += 1
        counts["sentences"] += wanted[1]
    counts["grammars"] += 1


def all_small(counts):
    for file, longest in sentences.shapes():
        answer, grammar = model.check(file)
        if answer == 0:
            compare(file, grammar, max(longest, 6), counts)


def random_ones(rng, grammars, counts):
    for _ in range(grammars):
        file, grammar = generate.small_grammar(rng)
        compare(file, grammar, LONGEST[grammar.tokens], counts)


def any_tokens(rng, grammar):
    """Mostly tokens that some sentence goes on with, so that long beginnings are read."""
    rules, tokens = sentences.Rules(grammar), []
    for _ in range(rng.randrange(9)):
        goes_on = [token for token in range(grammar.tokens) if rules.is_begun((*tokens, token))]
        tokens.append(rng.choice(goes_on) if goes_on and rng.random() < 0.9 else rng.randrange(grammar.tokens + 1))
        if tokens[-1] >= grammar.tokens:
            break
    return tokens


def program_inputs(program, rng, inputs, counts):
    for _ in range(inputs):
        file, grammar = generate.small_grammar(rng)
        data = input_of(file, any_tokens(rng, grammar)) + rng.choice([b"", b"", b"", b"\0"])
        if rng.random() < 0.1:
            data = data[:rng.randrange(len(data))]
        wanted, got = plain_engine.compared(data), plain_engine.output(program, data)
        if got != wanted:
            raise SystemExit(f"{program}: input {data.hex()}: wanted {wanted}, got {got}")
        counts["inputs"] += 1
        counts["refused"] += wanted.startswith(b"grammar")
        counts["stopped"] += b"stopped 0" not in wanted and not wanted.startswith(b"grammar")


def main():
    program, seed, grammars, inputs = sys.argv[1], *map(int, sys.argv[2:5])
    for name, work, kinds in [
            ("every grammar of the shapes", all_small, ["grammars", "strings", "sentences"]),
            ("random grammars", lambda counts: random_ones(random.Random(seed), grammars, counts), ["grammars", "strings", "sentences"]),
            ("the program", lambda counts: program_inputs(program, random.Random(seed), inputs, counts), ["inputs", "refused", "stopped"])]:
        counts = dict.fromkeys(kinds, 0)
        work(counts)
        print(f"{name}: " + ", ".join(f"{what} {count}" for what, count in counts.items()))
        if not all(counts.values()):
            raise SystemExit(f"{name}: nothing was compared of some of these")


if __name__ == "__main__":
    main()
