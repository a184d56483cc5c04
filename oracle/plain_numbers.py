#!/usr/bin/env python3
"""The inputs of C-24's readings, E1 to E7, on the built library and on the program that compares the two engines, beside numbers written out by hand.

    plain_numbers.py PROGRAM

Then unit chains 40 deep, with the symbols numbered along the chain and against it, and the longest string of the most ambiguous grammar, with its
time."""

import subprocess
import sys
import threading
import time

import library
import model
import plain_engine
from expecting import expect, passed
from plain_engine import AS_IT_WAS, Call, input_of, needed, place, plain_of_library

A = model.GRAMMAR_A
UNIT = bytes.fromhex("01 0000001d 0005 0001 0003 000300010004 00010002ffff 00020000ffff")  # S ::= X, X ::= 0
DOUBLE = bytes.fromhex("01 0000001d 0004 0001 0003 000200010003 000100010001 00010000ffff")  # S ::= S S | 0
BROKEN = A[:-2] + b"\0\7"
RUBBISH = 0x1234_5678_9ABC_DEF0
LINKS = 40
MOST_SECONDS = 5.0


def told(file, tokens, words):
    """The number, the word and the count; what was lent is only looked at."""
    lent = [RUBBISH] * words
    number, yes, count, after = plain_of_library(file, tokens, lent)
    expect(f"{file.hex()}, {tokens}: words behind the table", after[count if number == 0 else 0:], lent[count if number == 0 else 0:])
    return number, yes, count


def the_call():
    expect("E1: A, 0 1 0", told(A, [0, 1, 0], 48), (0, 1, 48))
    expect("E1: A, 0 1", told(A, [0, 1], 24), (0, 0, 24))
    expect("E1: malformed", told(A[:-1], [0], 99), (1, AS_IT_WAS, 0))
    expect("E1: broken", told(BROKEN, [0], 99), (2, AS_IT_WAS, 0))
    expect("E2: malformed before a token", told(A[:10], [2], 0), (1, AS_IT_WAS, 0))
    expect("E2: broken before too many", told(BROKEN, [0] * 65, 0), (2, AS_IT_WAS, 0))
    expect("E2: empty, no slice", told(A, [], 0), (0, 0, 0))
    expect("E2: empty, a slice", told(A, [], 9), (0, 0, 0))
    expect("E2: a 2 among 65 tokens", told(A, [0] * 40 + [2] + [0] * 24, 0), (5, AS_IT_WAS, 0))
    expect("E2: 65 zeros", told(A, [0] * 65, 20000), (22, AS_IT_WAS, 0))
    expect("E2: token 2, no slice", told(A, [2], 0), (5, AS_IT_WAS, 0))
    expect("E2: the last token 65535", told(A, [0, 65535], 99), (5, AS_IT_WAS, 0))
    expect("E3: one token, no slice", told(A, [0], 0), (13, AS_IT_WAS, 8))
    expect("E3: one token, one word too few", told(A, [0], 7), (13, AS_IT_WAS, 8))
    expect("E3: one token, just enough", told(A, [0], 8), (0, 1, 8))
    expect("E3: 32 tokens", told(A, [0, 1] * 16, 4223), (13, AS_IT_WAS, 4224))
    expect("E3: 64 tokens", told(A, [0, 1] * 32, 0), (13, AS_IT_WAS, 16640))
    expect("E3: 64 tokens, just enough", told(A, [0, 1] * 32, 16640), (0, 0, 16640))


def the_places():
    """A, 0 1 0: the rows of 0, 1, 0; of 0 1, 1 0; of 0 1 0."""
    words = plain_of_library(A, [0, 1, 0], [RUBBISH] * 50)[3]
    expect("E4: rows", words[0:48:8], [0b101, 0b10, 0b101, 0, 0b1000, 0b100])
    expect("E4: their other words", [word for at, word in enumerate(words[:48]) if at % 8], [0] * 42)
    expect("E4: places of 3 tokens", [place(3, length, begin) for length in (1, 2, 3) for begin in range(4 - length)], list(range(6)))


def the_unit_rules():
    expect("E5: S ::= X, X ::= 0", told(UNIT, [0], 8), (0, 1, 8))
    for name, order in ("along", range(1, LINKS + 1)), ("against", [1, *range(LINKS, 1, -1)]):
        symbols = list(order)  # S is symbol 1; the rules stand in the order of the chain, as the check asks
        links = [(a, b, None) for a, b in zip(symbols, symbols[1:])]
        wrap = (LINKS + 1, 1, LINKS + 2)
        file = model.make_file(LINKS + 3, 1, [wrap, *links, (symbols[-1], 0, None)])
        expect(f"chain, numbered {name}", told(file, [0], 8), (0, 1, 8))
        expect(f"chain, numbered {name}, the row", plain_of_library(file, [0], [0] * 8)[3][0], (1 << LINKS + 1) - 1)
        expect(f"chain, numbered {name}, 0 0", told(file, [0, 0], 24), (0, 0, 24))
        wrong_order = model.make_file(LINKS + 3, 1, [wrap, (symbols[-1], 0, None), *reversed(links)])
        expect(f"chain, numbered {name}, blocks the other way", told(wrong_order, [0], 8), (2, AS_IT_WAS, 0))
        expect(f"chain, numbered {name}, blocks the other way, the check", library.check(library.File(wrong_order)), 2)


def the_longest():
    longest = Call(DOUBLE, [0] * 64, [RUBBISH] * needed(64))
    started = time.process_time()
    longest.make()
    seconds = time.process_time() - started
    expect("S ::= S S | 0, 64 tokens", longest.told()[:3], (0, 1, 16640))
    expect("S ::= S S | 0, 64 tokens, in time", seconds < MOST_SECONDS, True)
    print(f"S ::= S S | 0, 64 tokens: {1000 * seconds:.2f} ms")


def the_program(program):
    def row(what, data, *lines):
        wanted = "".join(line + "\n" for line in lines).encode()
        expect(f"E7: {what}, the model", plain_engine.compared(data), wanted)
        expect(f"E7: {what}", plain_engine.output(program, data), wanted)

    none = "disagreement none"
    row("A, 0 1 0", input_of(A, [0, 1, 0]), "compared 4", "stopped 0", none)
    row("A, 0 0 0", input_of(A, [0, 0, 0]), "compared 4", "stopped 6", none)
    row("A, 0 2", input_of(A, [0, 2]), "compared 3", "stopped 5", none)
    row("A, 0 2 0 1", input_of(A, [0, 2, 0, 1]), "compared 5", "stopped 5", none)
    row("A, no token", A, "compared 1", "stopped 0", none)
    row("A, 0 and a lone byte", input_of(A, [0]) + b"\0", "compared 3", "stopped 5", none)
    row("A, 32 tokens", input_of(A, [0, 1] * 16), "compared 33", "stopped 0", none)
    row("A, 33 tokens", input_of(A, [0, 1] * 16 + [0]), "tokens 22")
    row("A, 32 tokens and a lone byte", input_of(A, [0, 1] * 16) + b"\0", "tokens 22")
    row("A, 33 tokens that A has not", input_of(A, [9] * 33), "tokens 22")
    row("A, 5000 tokens", input_of(A, [0] * 5000), "tokens 22")
    row("S ::= S S | 0, 32 tokens: no room for the last", input_of(DOUBLE, [0] * 32), "compared 32", "stopped 14", none)
    row("S ::= S S | 0, 31 tokens", input_of(DOUBLE, [0] * 31), "compared 32", "stopped 0", none)
    row("S ::= X, X ::= 0, 0", input_of(UNIT, [0]), "compared 2", "stopped 0", none)
    row("nothing", b"", "grammar 1")
    row("A cut off", A[:-1], "grammar 1")
    row("broken, 33 tokens", input_of(BROKEN, [0] * 33), "grammar 2")
    row("2,049 rules told", bytes.fromhex("01 00003011 0006 0002 0801"), "grammar 2")


def reads_no_further(program):
    """Behind a header that is refused nothing is read: the program ends though its input does not."""
    with subprocess.Popen([program], stdin=subprocess.PIPE, stdout=subprocess.PIPE, bufsize=0) as running:
        patience = threading.Timer(30, running.kill)
        patience.start()
        running.stdin.write(bytes.fromhex("01 00003011 0006 0002 0801"))
        expect("2,049 rules told, and the input goes on", running.stdout.read(), b"grammar 2\n")
        patience.cancel()


if __name__ == "__main__":
    the_call()
    the_places()
    the_unit_rules()
    the_longest()
    the_program(sys.argv[1])
    reads_no_further(sys.argv[1])
    sys.exit(not passed())
