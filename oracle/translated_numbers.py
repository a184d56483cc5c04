#!/usr/bin/env python3
"""The examples of docs/TRANSLATION.md byte for byte, the inputs of C-18's readings, damaged bytes of each kind, and the limits, on every
translator there is, and on the program. What is wanted is written out by hand.
"""

import os
import struct
import subprocess
import sys

import asserting  # noqa: F401
import library
import translate
from translate import Written

# The translators, by name: bytes and the number of bytes lent to number, file and whether the empty sentence was there.
TRANSLATORS = {"reference": translate.translate, "library": library.translate}

PLENTY = 11 + 6 * translate.MAX_RULES

PROGRAM = os.path.join(os.path.dirname(os.path.dirname(os.path.abspath(__file__))), "target", "bin", "translate")


def by_program(written, lent):
    """The same by the program, whose output has room for every file."""
    ran = subprocess.run([PROGRAM], input=written, capture_output=True, check=True)
    kind, said = ran.stderr.decode().removesuffix("\n").split(" ")
    if kind == "written":
        assert ran.stdout == b""
        return int(said), None, None
    assert kind == "empty" and said in ("yes", "no")
    return 0, ran.stdout, said == "yes"


def grammar(tokens, nonterminals, start, *rules):
    return Written(tokens, nonterminals, start, [(left, list(right)) for left, *right in rules]).bytes()


def file(symbols, tokens, *rules):
    lines = [rule if len(rule) == 3 else (*rule, translate.NONE) for rule in rules]
    return struct.pack(">BI3H", 1, 11 + 6 * len(lines), symbols, tokens, len(lines)) + b"".join(struct.pack(">3H", *line) for line in lines)


# ------------------------------------------------------------------------------------------------- The examples

LIST = "020001000100020001 00010000 0001000200000001"  # S ::= | a S
LIST_FILE = "01 0000001d 0004 0001 0003  0002 0001 0003  0001 0000 0001  0001 0000 ffff"
THREE = "02 0003 0001 0001 0003  0003 0003 0000 0001 0002"  # A ::= x y z
THREE_FILE = "01 0000001d 0007 0003 0003  0005 0003 0006  0003 0004 0002  0004 0000 0001"
HIDDEN = "02 0003 0002 0004 0003 0003 0003 0004 0003 0002 0003 0001 0000 0004 0000 0004 0001 0001"  # A ::= B A x | a; B ::= | b
HIDDEN_FILE = "01 0000002f 0008 0003 0006 000600030007 00040001ffff 000500040003 00050003ffff 000300050002 00030000ffff"

EXAMPLES = [
    ("S ::= | a S", LIST, LIST_FILE, True),
    ("A ::= x y z", THREE, THREE_FILE, False),
    ("A ::= B A x | a, B ::= | b", HIDDEN, HIDDEN_FILE, False),
]


# ------------------------------------------------------------------------------------------------- The readings

def vanishing(count, *more):
    """S ::= a E; E ::= fifteen more, which go on likewise, and the last of them ::= nothing; and further rules."""
    tree = [(2 + place, *range(3 + 15 * place, min(18 + 15 * place, 2 + count))) for place in range(count)]
    return grammar(1, 1 + count + len({left for left, *right in more}), 1, (1, 0, 2), *tree, *more)


ONE_FILE = file(4, 1, (2, 1, 3), (1, 0))  # S ::= a

READINGS = [
    # (reading, bytes, number, file, empty)
    ("1 one of 60,001 that nothing reaches", vanishing(60000, (60002,)), 19, None, None),
    ("1 60,000 that vanish", vanishing(60000), 0, ONE_FILE, False),
    ("2 T + M past 65,536", "02 ffff ffff 0001 ffff ffff 0001 0000", 18, None, None),
    ("2 and another that derives itself", "02 ffff ffff 0001 ffff ffff 0001 ffff", 17, None, None),
    ("2 T + M just 65,536", grammar(0xFFFF, 1, 0xFFFF, (0xFFFF, 0)), 21, None, None),
    ("3 T 0", "02 0000 0001 0001 0000 0000 0000", 20, None, None),
    ("3 R 0", "02 0001 0001 0000 0001", 18, None, None),
    ("3 M 0", "02 0001 0000 0000 0001", 16, None, None),
    ("4 S ::= a", "020001000100010001000100010000", 0, ONE_FILE, False),
    ("4 a byte more", "020001000100010001000100010000" + "00", 16, None, None),
    ("4 a rule more", "020001000100010001000100010000" + "00010000", 16, None, None),
    ("4 16 symbols", grammar(1, 1, 1, (1, *[0] * 16)), 0, file(18, 1, (16, 1, 17), (1, 15, 0), *[(n, n - 1 if n > 2 else 0, 0) for n in range(2, 16)]), False),
    ("4 17 symbols", grammar(1, 1, 1, (1, *[0] * 17)), 16, None, None),
    ("5 0xFFFF is a symbol", grammar(0xFFFE, 2, 0xFFFE, (0xFFFE, 0, 0xFFFF), (0xFFFF,)), 21, None, None),
    ("5 and vanishes", vanishing(0xFFFE), 0, ONE_FILE, False),
    ("6 S ::= S S | nothing", "020001000100020001000100020001000100010000", 17, None, None),
    ("6 S ::= a S derives no string", grammar(1, 1, 1, (1, 0, 1)), 18, None, None),
    ("6 an unreachable A ::= A", "020001000200020001000100010000000200010002", 17, None, None),
    ("6 A ::= B, B ::= A", grammar(1, 2, 1, (1, 2), (2, 1), (1, 0)), 17, None, None),
    ("6 A ::= E A E, E ::= nothing", grammar(1, 2, 1, (1, 2, 1, 2), (2,), (1, 0)), 17, None, None),
    ("7 A ::= nothing alone", grammar(1, 2, 1, (1, 0, 2), (2,)), 0, ONE_FILE, False),
    ("7 no rule", grammar(1, 2, 1, (1, 0), (1, 2)), 18, None, None),
    ("7 another rule would do", grammar(1, 2, 1, (1, 0), (1, 0, 2), (2, 2, 0)), 18, None, None),
    ("8 reached through what vanishes", grammar(1, 3, 1, (1, 0, 2), (2, 3), (3,)), 0, ONE_FILE, False),
    ("8 a token that nothing reaches", grammar(2, 1, 2, (2, 0)), 0, file(5, 2, (3, 2, 4), (2, 0)), False),
    ("9 S is 2, then 1", "02000100040004000200010000000200030001000300000003000100040004000200000001", 0,
     file(6, 1, (4, 1, 5), (1, 2, 0), (2, 3), (3, 0)), False),
    ("9 a vanished one below S", grammar(1, 2, 2, (2, 0, 1), (1,)), 0, ONE_FILE, False),
    ("10 S ::= E E E a", grammar(1, 2, 1, (1, 2, 2, 2, 0), (2,)), 0, ONE_FILE, False),
    ("12 S ::= a b c twice", "0200030001000200030003000300000001000200030003000000010002", 0,
     file(8, 3, (6, 3, 7), (3, 4, 2), (3, 5, 2), (4, 0, 1), (5, 0, 1)), False),
    ("12 S ::= a b twice", grammar(2, 1, 2, (2, 0, 1), (2, 0, 1)), 0, file(5, 2, (3, 2, 4), (2, 0, 1)), False),
    ("12 one when E vanishes", grammar(1, 2, 1, (1, 0, 2), (1, 0), (2,)), 0, ONE_FILE, False),
    ("12 S ::= B B", grammar(1, 2, 1, (1, 2, 2), (2,), (2, 0)), 0, file(5, 1, (3, 1, 4), (1, 2, 2), (1, 2), (2, 0)), True),
    ("14 only the empty sentence", grammar(1, 1, 1, (1,)), 20, None, None),
]


# ------------------------------------------------------------------------------------------------- Damage, order and limits

ONE = grammar(1, 1, 1, (1, 0))

DAMAGED = [(f"{length} bytes of S ::= a", ONE[:length], 16) for length in range(len(ONE))] + [
    ("a byte more than the longest", b"\x02" + bytes(9 + 36 * 0xFFFF), 16),
    ("version 1", b"\x01" + ONE[1:], 16),
    ("S is a token", grammar(1, 1, 0, (1, 0)), 16),
    ("S is T+M", grammar(1, 1, 2, (1, 0)), 16),
    ("a left side that is a token", grammar(1, 1, 1, (0, 0), (1, 0)), 16),
    ("a left side T+M", grammar(1, 1, 1, (2, 0), (1, 0)), 16),
    ("a symbol T+M", grammar(1, 1, 1, (1, 0, 2)), 16),
    ("a length past the end", ONE[:-3] + b"\x02\x00\x00", 16),
    ("a length of 65,535", ONE[:-4] + b"\xff\xff\x00\x00", 16),
    # the lowest number decides
    ("16 before 17", grammar(1, 1, 1, (1, 1)) + b"\x00", 16),
    ("17 before 18", grammar(1, 2, 1, (1, 1)), 17),
    ("18 before 19", grammar(1, 3, 1, (1, 0), (2, 0)), 18),
    ("19 before 20", grammar(1, 2, 1, (1,), (2, 0)), 19),
    ("20 before 21", grammar(600, 1, 600, (600,)), 20),
]


def pairs(count, *, twice=False):
    """S ::= x y for so many pairs of tokens."""
    rules = [(50, *divmod(place, 50)) for place in range(count)]
    return grammar(50, 1, 50, *rules, *(rules if twice else []))


LIMITS = [
    # (what, bytes, lent, number, length)
    ("512 symbols", grammar(509, 1, 509, (509, 0)), PLENTY, 0, 23),
    ("513 symbols", grammar(510, 1, 510, (510, 0)), PLENTY, 21, None),
    ("512 with new ones", grammar(495, 1, 495, (495, *[0] * 16)), PLENTY, 0, 11 + 6 * 16),
    ("513 with new ones", grammar(496, 1, 496, (496, *[0] * 16)), PLENTY, 21, None),
    ("2,048 rules", pairs(2047), PLENTY, 0, PLENTY),
    ("2,049 rules", pairs(2048), PLENTY, 21, None),
    ("2,048 rules, each written twice", pairs(2047, twice=True), PLENTY, 0, PLENTY),
    ("just enough output", ONE, 23, 0, 23),
    ("output one byte short", ONE, 22, 21, None),
    ("no output", ONE, 0, 21, None),
]


def rows():
    """What, bytes, lent, and the answer; or instead of the file its length."""
    for name, written, wanted, empty in EXAMPLES:
        yield name, bytes.fromhex(written), PLENTY, (0, bytes.fromhex(wanted), empty)
    for name, written, *wanted in READINGS:
        yield "reading " + name, bytes.fromhex(written) if isinstance(written, str) else written, PLENTY, tuple(wanted)
    for name, written, number in DAMAGED:
        yield name, written, PLENTY, (number, None, None)
    for name, written, lent, number, length in LIMITS:
        yield name, written, lent, (number, length)


def main():
    count = failed = 0
    for name, written, lent, wanted in rows():
        translators = {**TRANSLATORS, "program": by_program} if lent == PLENTY else TRANSLATORS
        for translator, answer in translators.items():
            got = answer(written, lent)
            if len(wanted) == 2:
                got = got[0], got[1] and len(got[1])
            count += 1
            if got != wanted:
                failed += 1
                print(f"{translator}, {name}: wanted {wanted}, got {got}")
    print(f"translated numbers: {count} rows, {failed} failed")
    return 0 if count and not failed else 1


if __name__ == "__main__":
    sys.exit(main())
