#!/usr/bin/env python3
"""The inputs of the readings of C-14 (docs/DECISIONS.md, 14.1 to 14.5) on the built library, what is wanted written out by hand; and random
grammars, of which many break this condition alone, beside the two checkers in Python.
"""

import random
import sys

import grammar_check
import library
import model
from by_hand import expect, passed

RANDOM, LEAST = 4000, 400


def answered(file):
    return library.check(library.File(file))


def readings():
    loose = bytes.fromhex("010000002900070002000500050002000600020002000300020000ffff00030001000200040000ffff")
    expect("14.5 the file with a loose 4 ::= 0", grammar_check.LOOSE, loose)
    for reading, file, breaks in [
        ("14.1 A, of which 3 is reached as a second symbol alone", model.GRAMMAR_A, []),
        ("14.1 B", model.GRAMMAR_B, []),
        ("14.2 a token that no rule uses", grammar_check.pack(*grammar_check.UNUSED_TOKEN), []),
        ("14.4 a ring off S", grammar_check.RING, ["reachable"]),
        ("14.5 A with a loose 4 ::= 0", loose, ["reachable"]),
        ("02 forty nonterminals that nothing reaches", grammar_check.FORTY, ["reachable"]),
    ]:
        expect(f"{reading}: what it breaks", grammar_check.broken(*grammar_check.parse(file)), breaks)
        expect(reading, answered(file), 2 if breaks else 0)


def random_grammars():
    rng, alone, accepted = random.Random(14), 0, 0
    for number in range(RANDOM):
        parsed = grammar_check.grammar(rng)
        file = grammar_check.pack(*parsed)
        answer = answered(file)
        expect(f"random grammar {number}, {file.hex()}", (answer, answer), (grammar_check.answer(file), model.check(file)[0]))
        alone += grammar_check.broken(*parsed) == ["reachable"]
        accepted += answer == 0
    print(f"random grammars {RANDOM}: accepted {accepted}, refused for what is out of reach alone {alone}")
    expect(f"at least {LEAST} of each", min(alone, accepted) >= LEAST, True)


def main():
    for part in (readings, random_grammars):
        part()
    return 0 if passed() else 1


if __name__ == "__main__":
    sys.exit(main())
