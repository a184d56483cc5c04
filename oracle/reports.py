#!/usr/bin/env python3
"""The reports of the built library that fill a lent place, beside the plain model and beside the library's own token call.

    reports.py SEED ROUNDS LEAST

ROUNDS times 100 random cases from SEED: parses from the start, forged states, states with the largest numbers there can be, states with
one phrase of well formed broken, files that the check refuses. Each of the four reports is asked with a place that is empty, one too short,
just long enough and longer, of any contents. Compared are the answer, the count, each element of the place, some behind it, and every word
of the parse. And where the state is well formed, tokens below T are offered to a copy of the words, all where they are few: each is listed
exactly when it is not answered 6.

Prints what was met. Fails where an answer of a report, a kind of place, or an answer to a token offered was met less than LEAST times, or
where one of the rarer things was not met at all.
"""

import random
import sys

import differential
import generate
import library
import model
from differential import Both
from rounds import Differs, met, same
from streams import Chart

OFFERED = 40
REPORTS = {"expected": 2**16, "listing": 2**8, "latest_words": 2**32, "latest_records": 2**32}  # each with the numbers that fit an element


def any_place(rng, report, length):
    number = lambda: rng.randrange(REPORTS[report])
    return [tuple(number() for _ in range(5)) if report == "latest_records" else number() for _ in range(length)]


class Reported(Both):
    """A parse kept by the model and the library, whose reports are compared."""

    def ask(self, rng, report, length):
        """One report into a place of this length: its answer, and the place."""
        ours = any_place(rng, report, length)
        wanted = ours[:]
        answer = getattr(model, report)(self.data, self.state, self.buffers, wanted)
        self.tell(report, getattr(library, report)(self.file, self.state, self.lent, ours), answer)
        same(f"{report} on {self.data.hex()}, state {tuple(self.state)}: the place", ours, wanted)
        return *answer, ours

    def filled(self, rng):
        """Every report, into places of each kind. The answer of the last."""
        for report in REPORTS:
            answer, needed, _ = self.ask(rng, report, 0)
            met[f"{report}: empty place, " + {0: "nothing to tell", model.TOO_SHORT: "too short"}.get(answer, "refused")] += 1
            for kind, length in [("one short", needed - 1), ("exact", needed), ("longer", needed + rng.randint(1, 9))]:
                if length > 0:
                    answer, count, _ = self.ask(rng, report, length)
                    met[f"{report}: {kind}" + (", refused" if answer not in (0, model.TOO_SHORT) else "")] += 1
        return answer

    def offered(self, rng, grammar):
        """Tokens below T on a copy of the same words: all, or OFFERED of them."""
        answer, count, place = self.ask(rng, "expected", grammar.tokens)
        same("T tokens of place suffice", answer, 0)
        for token in rng.sample(range(grammar.tokens), min(grammar.tokens, OFFERED)):
            number, _ = library.token(self.file, self.state, library.Lent(self.buffers), token)
            about = f"token {token} on {self.data.hex()}, state {tuple(self.state)}, answered {number}"
            same(f"{about}: listed", token in place[:count], number != 6)
            met[f"offered, answered {number}"] += 1

    def well_formed(self, rng, grammar):
        same("well formed", self.filled(rng), 0)
        self.offered(rng, grammar)


# ------------------------------------------------------------------------------------------------------ Kinds of case

def a_parse(rng):
    """A parse from the start, in words of any size, reported on the way and behind refusals."""
    file, grammar = differential.random_file(rng)
    parse = Reported(file, differential.any_state(rng), differential.small_words(rng))
    if parse.begin():
        parse.filled(rng)
        return
    parse.well_formed(rng, grammar)
    for _ in range(rng.randint(1, 6)):
        parse.token(differential.next_token(rng, parse, grammar))
    parse.well_formed(rng, grammar)


def a_forged_state(rng):
    """A well-formed state that no start need reach."""
    case = generate.forged_case(rng, generate.small_grammar, 0)
    grammar = model.check(case.file)[1]
    Reported(case.file, *differential.fitting(rng, case.chart)).well_formed(rng, grammar)


def an_ended_state(rng):
    """One behind which no token can stand, as its latest row has none."""
    case = generate.forged_case(rng, generate.small_grammar, 0)
    grammar = model.check(case.file)[1]
    *rows, latest = case.chart.rows
    ended = case.chart._replace(rows=[*rows, latest >> grammar.tokens << grammar.tokens])
    Reported(case.file, *differential.fitting(rng, ended)).well_formed(rng, grammar)


def many_tokens(rng):
    """As many tokens as there can be."""
    return generate.random_grammar(rng, model.MAX_TOKENS, 1, rng.randint(20, 600), 0.3)


def a_wide_state(rng):
    """A latest set with symbols and origins of every number of digits, the longest line among them, up to the most items there can be."""
    file, grammar = rng.choice([many_tokens, many_tokens, generate.largest_grammar, generate.large_grammar, generate.middle_grammar])(rng)
    binary = [rule for rule, (_, _, second) in enumerate(grammar.rules) if second is not None]
    set_number = rng.choice([1, 10, 11, 100, 101, 1000, 1001, model.MAX_SETS - 1, model.MAX_SETS - 1])
    most = set_number * len(binary)
    chosen = rng.sample(range(most), min(most, rng.choice([1, 10, 100, 100, 100, model.MAX_ITEMS - 1])))
    items = {(at % set_number, binary[at // set_number]) for at in chosen} | {(set_number - 1, 0)}
    items = sorted(items, key=lambda item: model.set_order(grammar, item))
    rows = [rng.getrandbits(grammar.symbols) for _ in range(set_number + 1)]
    chart = Chart(set_number, None, items, [0] * (set_number + 1) + [len(items)], rows)
    parse = Reported(file, *differential.fitting(rng, chart))
    parse.well_formed(rng, grammar)
    longest = max(len(line) for line in model.text_of_the_set(grammar, parse.state, parse.buffers).splitlines(keepends=True))
    same("a line has at most 25 bytes", longest <= 25, True)
    met["lines of 25 bytes"] += longest == 25
    met["4,096 items"] += len(items) == model.MAX_ITEMS


def a_damaged_state(rng):
    """One phrase of well formed broken: 4, whatever place is lent."""
    case = generate.forged_case(rng, generate.small_grammar, 0)
    grammar = model.check(case.file)[1]
    state, buffers = differential.fitting(rng, case.chart)
    for way in rng.sample(differential.WAYS, 4):
        broken = buffers.copy()
        damaged = differential.damage(rng, way, grammar, case.chart, state, broken)
        if damaged is not None:
            same(f"broken: {way}", Reported(case.file, damaged, broken).filled(rng), 4)
            met[f"damaged: {way}"] += 1


def a_refused_file(rng):
    """A bit of the file turned so that the check refuses it: 1 or 2, whatever the state and the place."""
    case = generate.forged_case(rng, generate.small_grammar, 0)
    state, buffers = differential.fitting(rng, case.chart)
    file, answer = case.file, 0
    while answer == 0:
        turned = bytearray(case.file)
        turned[rng.choice([0, 4, 10, rng.randrange(len(turned)), rng.randrange(len(turned))])] ^= 1 << rng.randrange(8)
        file = bytes(turned)
        answer = model.check(file)[0]
    if rng.random() < 0.5:
        buffers.starts[0] = 1
    same("refused", Reported(file, state, buffers).filled(rng), answer)


# ------------------------------------------------------------------------------------------------------------- Runs

KINDS = [(a_parse, 41), (a_forged_state, 25), (an_ended_state, 5), (a_wide_state, 1), (a_damaged_state, 13), (a_refused_file, 15)]
PLACES = ["empty place, too short", "empty place, nothing to tell", "empty place, refused", "one short", "exact", "longer", "longer, refused"]
ASKED = [f"{report} {answer}" for report in REPORTS for answer in (0, 1, 2, 4, 13)] + \
        [f"{report}: {kind}" for report in REPORTS for kind in PLACES] + [f"offered, answered {answer}" for answer in (0, 6, *differential.ROOM_REFUSALS)]
RARER = ["lines of 25 bytes", "4,096 items"] + [f"damaged: {way}" for way in differential.WAYS]


def main():
    seed, rounds, least = (int(word) for word in sys.argv[1:4])
    rng = random.Random(seed)
    kinds, weights = zip(*KINDS)
    try:
        for _ in range(rounds):
            for kind in rng.choices(kinds, weights, k=100):
                kind(rng)
    except Differs as differs:
        print(f"seed {seed}: {differs}")
        return 1
    for name in sorted(met):
        print(f"{name}: {met[name]}")
    asked = sum(met[f"{report} {answer}"] for report in REPORTS for answer in (0, 1, 2, 4, 13))
    rare = [name for name in ASKED if met[name] < max(1, least)] + [name for name in RARER if not met[name]]
    if rare:
        print("met too rarely: " + ", ".join(rare))
        return 1
    print(f"seed {seed}: {asked} reports, no difference")
    return 0


if __name__ == "__main__":
    sys.exit(main())
