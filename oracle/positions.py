#!/usr/bin/env python3
"""Positions of several kinds on the built library: one kind beside a token, every room of a box beside the plain model, the Rust, and the rules alone.

    positions.py SEED ROUNDS

First some positions in every room of a box, so that each of 7, 8, 9 and 14 comes first somewhere. Then ROUNDS times from SEED: random parses, forged and
damaged states, on which a position of one kind and a token do the same, every word and unit after every call; random parses in the rooms that the Rust
needed, and in one less; and small grammars with every choice of positions up to a length: a position is refused 6 exactly when no choice of kinds begins a
sentence, finished is said exactly where a choice is a sentence, and the trees are exactly the derivations of all choices, each once. Random parses with
kinds beside the model are in differential.py. Prints what was compared. Fails at the first difference, and where something was compared less often than
LEAST says for a round.
"""

import sys
from itertools import combinations, product

import differential
import forest_model as forest
import generate
import library
import model
import position_numbers
import rounds
import sentences
import streams
import trees
from differential import Both
from rounds import in_hand, met, same
from streams import Case


# -------------------------------------------------------------------------------------------------- One kind is a token

class Twins:
    """Two parses in the library's words, one read by tokens and one by positions of one kind. All is compared after every call."""

    def __init__(self, file, state, buffers):
        self.data, self.file, self.state = file, library.File(file), state
        self.lent, self.other = library.Lent(buffers), library.Lent(buffers)

    def call(self, name, read, other_name, other_read):
        ours = getattr(library, name)(self.file, self.state, self.lent, *read)
        same(f"{name} {read} and {other_name} {other_read} on {self.data.hex()}, state {tuple(self.state)}",
             getattr(library, other_name)(self.file, self.state, self.other, *other_read), ours)
        same(f"{name} {read}: words", self.other.words(), self.lent.words())
        met[f"{name} as {other_name}, {ours[0]}"] += 1
        self.state = ours[1]
        return ours[0]

    def begin(self):
        return self.call("begin", [], "begin", [])

    def token(self, number):
        return self.call("token", [number], "kinds", [[number]])

    def run(self, tokens):
        return self.call("run", [tokens], "run_kinds", [model.words_of_positions([token] for token in tokens)])

    @property
    def buffers(self):
        return self.lent.buffers()


def read_as_twins(rng, twins, grammar):
    for _ in range(rng.randint(1, 12)):
        token = lambda: min(differential.next_token(rng, twins, grammar), 65535)
        answer = twins.run([token() for _ in range(rng.randint(0, 4))]) if rng.random() < 0.3 else twins.token(token())
        if answer not in (0, 5, 6):
            break


def one_kind_is_a_token(rng):
    for _ in range(200):
        file, grammar = differential.random_file(rng)
        twins = Twins(file, differential.any_state(rng), differential.small_words(rng))
        if twins.begin() == 0 or rng.random() < 0.3:
            read_as_twins(rng, twins, grammar)
    for _ in range(60):
        case = generate.forged_case(rng, generate.small_grammar, 0)
        grammar = model.check(case.file)[1]
        state, buffers = differential.fitting(rng, case.chart)
        damaged = differential.damage(rng, rng.choice(differential.WAYS), grammar, case.chart, state, broken := buffers.copy())
        if damaged is not None:
            twins = Twins(case.file, damaged, broken)
            same("broken", (twins.token(0), twins.run([0])), (4, 4))
        read_as_twins(rng, Twins(case.file, state, buffers), grammar)


# ------------------------------------------------------------------------------------------------------ Every room of a box

def every_room():
    """Positions in each room up to a little more than they need: which refusal comes first."""
    for name, file, positions, units, items, queue, sets in [
            ("K [0 1]", position_numbers.K, [[0, 1]], 7, 5, 4, 4),
            ("S ::= S X | X, X ::= 0 | 1: [0 1] [1] [0 1]", position_numbers.LIST, [[0, 1], [1], [0, 1]], 30, 10, 4, 5),
            ("A [0 1] [0 1] [0]", model.GRAMMAR_A, [[0, 1], [0, 1], [0]], 15, 8, 3, 5)]:
        for room in product(range(units), range(items), range(queue), range(1, sets)):
            both = Both(file, forest.FRESH, forest.Buffers.spare(room[1], room[3], room[2], room[0]))
            same("start", both.begin(), 0)
            answer = next((answer for answer in map(both.kinds, positions) if answer), 0)
            met[f"{name}, first {answer}"] += 1
            same(f"{name} in {room}", answer in (0, *differential.ROOM_REFUSALS), True)
        for answer in (0, *differential.ROOM_REFUSALS):
            same(f"{name}: {answer} comes first somewhere", met[f"{name}, first {answer}"] > 0, True)


# -------------------------------------------------------------------------------------------------------- The Rust

def beside_the_rust(rng):
    """Several calls of the Rust's `scan` before one `end_earleme`: the same states, in the rooms that the Rust needed; and 7, 8 or 9 with one less."""
    made = [generate.position_case(rng, generate.small_grammar, True) for _ in range(8)]
    made += [generate.position_case(rng, rng.choice([generate.small_grammar] * 5 + [generate.middle_grammar])) for _ in range(22)]
    differential.compare_with_the_rust(made)


def where_the_rust_parts():
    """D12 of docs/DIFFERENCES.md: what the Rust tells its forest of positions that we refuse, and of a kind that we pass over."""
    told = lambda file, kinds: streams.ask_told([Case(file, None, False, [kinds])])[0]
    alone = lambda rule, node: (rule, node, streams.NO_NODE)
    same("a kind that is not predicted has a leaf", told(model.GRAMMAR_A, [0, 1]), [streams.Told(0, 1, [(0, 2, 2, [alone(2, 0)])], 2, [2, 2])])
    same("kinds that fall", told(position_numbers.K, [1, 0]), [streams.Told(0, 1, [(0, 2, 2, [alone(2, 0), alone(1, 1)])], 2, [2])])
    same("a kind twice", told(position_numbers.K, [0, 0]), [streams.Told(0, 1, [(0, 2, 2, [alone(1, 0), alone(1, 1)])], 2, [2])])


# ---------------------------------------------------------------------------------------------------- The rules alone

def beside_the_rules(rng):
    """Every choice of positions up to a length, prefix by prefix."""
    for _ in range(25):
        file, grammar = generate.small_grammar(rng)
        rules, parse = sentences.Rules(grammar), trees.Parse(file)
        tokens, longest = range(grammar.tokens), {1: 6, 2: 4, 3: 3}[grammar.tokens]
        every = [list(kinds) for many in range(1, grammar.tokens + 1) for kinds in combinations(tokens, many)]

        def visit(positions):
            here = parse.mark()
            for kinds in every:
                longer = positions + [kinds]
                in_hand[:] = [file.hex(), longer]
                words = list(product(*longer))
                begun = any(rules.is_begun(word) for word in words)
                same(f"{longer} on {file.hex()}", parse.kinds(kinds), 0 if begun else 6)
                met["accepted" if begun else "refused 6"] += 1
                met["accepted, of several kinds"] += begun and len(kinds) > 1
                met["refused 6, of several kinds"] += not begun and len(kinds) > 1
                if not begun:
                    continue
                same(f"finished, {longer} on {file.hex()}", parse.finished(), any(rules.is_sentence(word) for word in words))
                trees.same_as_derived(grammar, longer, parse)
                if len(longer) < longest:
                    visit(longer)
                parse.back_to(here)

        visit([])
        met["grammars"] += 1


# ------------------------------------------------------------------------------------------------------------- Runs

# What one round must at least meet.
LEAST = {
    **{f"token as kinds, {n}": least for n, least in [(0, 60), (1, 1), (4, 10), (5, 3), (6, 8), (7, 8), (8, 4), (9, 3), (14, 4)]},
    **{f"run as run_kinds, {n}": least for n, least in [(0, 20), (4, 10), (5, 2), (6, 4), (7, 2)]},
    "Rust: position 0": 40, "Rust: position 6": 5, "Rust: one less 7": 10, "Rust: one less 8": 10, "Rust: one less 9": 10, "Rust: one less 14": 10,
    "accepted, of several kinds": 200, "refused 6, of several kinds": 20, "refused 6": 50, "not finished": 50, "finished": 100, "finished by several words": 50,
    "trees beside the rules": 500,
}


if __name__ == "__main__":
    sys.exit(rounds.run((one_kind_is_a_token, beside_the_rust, beside_the_rules), LEAST, (where_the_rust_parts, every_room)))
