#!/usr/bin/env python3
"""A plain checker of grammar files, written from document 01 alone, and the recorded cases of the program replay_grammar.

  grammar_check.py              answer each case, and compare with what is recorded
  grammar_check.py --record     write stdin and stdout of crates/replay_grammar
  grammar_check.py FILE..       print the answer to each file
"""
import os
import random
import struct
import sys

import asserting  # noqa: F401

NONE = 0xFFFF
MAX_SYMBOLS, MAX_RULES = 512, 2048
WORD_BITS, ROW_WORDS = 64, 8
HERE = os.path.dirname(os.path.abspath(__file__))
PROGRAM = os.path.join(HERE, "..", "crates", "replay_grammar")

sys.setrecursionlimit(4 * MAX_SYMBOLS)  # the longest path of derives_some is one of all nonterminals


# ---- the checker

def parse(data):
    """N, T and the rules, or nothing where the bytes are malformed."""
    if len(data) < 11 or data[0] != 1:
        return None
    length, n, t, r = struct.unpack(">IHHH", data[1:11])
    if length != len(data) or length != 11 + 6 * r:
        return None
    return n, t, [struct.unpack(">HHH", data[11 + 6 * i:17 + 6 * i]) for i in range(r)]


def derives_some(x, t, rules, path, known):
    """Whether x derives some string of tokens: a tree that repeats no symbol on a path from its root."""
    if x < t or x in known:
        return True
    if x in path:
        return False
    for a, b, c in rules:
        if a == x and all(derives_some(y, t, rules, path | {x}, known) for y in ([b] if c == NONE else [b, c])):
            known.add(x)
            return True
    return False


def reached(rules):
    """The first symbol of rule 0, and all that it leads to from left sides to right sides."""
    seen, left = set(), [b for a, b, c in rules[:1]]
    while left:
        x = left.pop()
        if x not in seen:
            seen.add(x)
            left += [y for a, b, c in rules if a == x for y in ([b] if c == NONE else [b, c])]
    return seen


def broken(n, t, rules):
    """The conditions that do not hold, by the names of the fields of `Accepted`, each looked at by itself."""
    w, end = n - 2, n - 1
    nonterminals = range(t, n - 2)
    lefts = [rule[0] for rule in rules]
    places = {x: [i for i, y in enumerate(lefts) if y == x] for x in lefts}
    first = rules[0] if rules else (None, None, None)
    known = set()
    holds = {
        "a-token": t >= 1,
        "room": t + 3 <= n,
        "few-symbols": n <= MAX_SYMBOLS,
        "a-rule": len(rules) >= 1,
        "few-rules": len(rules) <= MAX_RULES,
        "wraps": first[0] == w and first[2] == end,
        "starts": first[1] in nonterminals,
        "lefts": all(a in nonterminals for a, b, c in rules[1:]),
        "firsts": all(b < n - 2 for a, b, c in rules[1:]),
        "seconds": all(c == NONE or c < n - 2 for a, b, c in rules[1:]),
        "adjacent": all(place == list(range(place[0], place[0] + len(place))) for place in places.values()),
        "distinct": len(set(rules)) == len(rules),
        "unary-below": all(i < j for i, (a, b, c) in enumerate(rules) if c == NONE and b in nonterminals for j in places.get(b, [])),
        "productive": all(derives_some(x, t, rules, frozenset(), known) for x in nonterminals),
        "reachable": set(nonterminals) <= reached(rules),
    }
    return [field for field, held in holds.items() if not held]


def accepted(n, t, rules):
    if not (1 <= t and t + 3 <= n <= MAX_SYMBOLS and 1 <= len(rules) <= MAX_RULES):
        return False
    return not broken(n, t, rules)


def answer(data):
    parsed = parse(data)
    if parsed is None:
        return 1
    return 0 if accepted(*parsed) else 2


def table(n, rules):
    """What each symbol reaches by first symbols."""
    firsts = {x: {b for a, b, c in rules if a == x} for x in range(n)}
    rows = []
    for x in range(n):
        seen, left = {x}, [x]
        while left:
            more = firsts[left.pop()] - seen
            seen |= more
            left += more
        rows.append(seen)
    return rows


# ---- the cases

def pack(n, t, rules, version=1, length=None, count=None):
    count = len(rules) if count is None else count
    length = 11 + 6 * len(rules) if length is None else length
    return struct.pack(">BIHHH", version, length, n, t, count) + b"".join(struct.pack(">HHH", *rule) for rule in rules)


A = (6, 2, [(4, 2, 5), (2, 2, 3), (2, 0, NONE), (3, 1, 2)])
B = (8, 3, [(6, 3, 7), (3, 3, 4), (3, 4, NONE), (4, 0, 5), (5, 1, 2)])

# The inputs of C-14's readings (docs/DECISIONS.md): A with a nonterminal, and with forty, that no rule uses; a ring off S; a token unused.
LOOSE = pack(7, 2, [(5, 2, 6)] + A[2][1:] + [(4, 0, NONE)])
FORTY = pack(46, 2, [(44, 2, 45)] + A[2][1:] + [(a, 0, NONE) for a in range(4, 44)])
RING = pack(7, 1, [(5, 1, 6), (1, 0, NONE), (2, 3, NONE), (3, 0, NONE), (3, 0, 2), (4, 0, 4), (4, 0, NONE)])
UNUSED_TOKEN = (5, 2, [(3, 2, 4), (2, 0, NONE)])


def wide(n, count):
    """An accepted grammar of n symbols and count rules: one token, every nonterminal behind S a token and the next one, the last a pair of
    tokens, S all the rest."""
    t, w, end = 1, n - 2, n - 1
    rules = [(w, 1, end)] + [(a, 0, a + 1) for a in range(2, n - 3)] + [(n - 3, 0, 0), (1, 0, NONE)]
    pairs = ((1, b, c) for b in range(n - 2) for c in range(n - 2))
    while len(rules) < count:
        rules.append(next(pairs))
    return n, t, rules[:1] + sorted(rules[1:])


def named():
    """Label, file and the conditions that it breaks, where that is the point of it: grammars of the paper, limits, each condition broken
    alone, each way to be malformed. T ≥ 1, T+3 ≤ N and R ≥ 1 cannot be broken alone, as no nonterminal, or no rule 0, is left then. Nor
    can S being a nonterminal: what is none has no rule, and reaches no nonterminal."""
    def changed(base, **fields):
        n, t, rules = base
        return pack(fields.pop("n", n), fields.pop("t", t), fields.pop("rules", rules), **fields)

    def with_rule(base, i, rule):
        return changed(base, rules=base[2][:i] + [rule] + base[2][i + 1:])

    a, b = pack(*A), pack(*B)
    tiny = (4, 1, [(2, 1, 3), (1, 0, NONE)])
    yield "grammar A", a, None
    yield "grammar B", b, None
    yield "T+3 = N", pack(*tiny), None
    all_tokens = (MAX_SYMBOLS, MAX_SYMBOLS - 3, [(MAX_SYMBOLS - 2, MAX_SYMBOLS - 3, MAX_SYMBOLS - 1)] +
                  [(MAX_SYMBOLS - 3, token, NONE) for token in range(MAX_SYMBOLS - 3)])
    yield f"N = {MAX_SYMBOLS}", pack(*wide(MAX_SYMBOLS, 600)), None
    yield f"N = {MAX_SYMBOLS + 1}", pack(*wide(MAX_SYMBOLS + 1, 600)), "few-symbols"
    yield f"N = {MAX_SYMBOLS}, T = {MAX_SYMBOLS - 3}", pack(*all_tokens), None
    yield f"R = {MAX_RULES}", pack(*wide(50, MAX_RULES)), None
    yield f"R = {MAX_RULES + 1}", pack(*wide(50, MAX_RULES + 1)), "few-rules"
    yield f"N = {MAX_SYMBOLS}, R = {MAX_RULES}", pack(*wide(MAX_SYMBOLS, MAX_RULES)), None
    yield "R = 0", pack(6, 2, []), None
    yield "R = 1", pack(6, 2, A[2][:1]), None
    yield "T = 0", pack(3, 0, [(1, 0, 2), (0, 0, 0)]), None
    yield "T+2 = N", pack(3, 1, [(1, 0, 2)]), None
    yield "N = 0", pack(0, 0, A[2]), None
    yield "N = 1", pack(1, 1, A[2]), None
    yield "T = 65535", changed(A, t=65535), None
    yield "N = 65535", changed(A, n=65535), None
    yield "rule 0: left is S", with_rule(A, 0, (2, 2, 5)), None
    yield "rule 0: left is the end mark", with_rule(A, 0, (5, 2, 5)), "wraps"
    yield "rule 0: no end mark", with_rule(A, 0, (4, 2, NONE)), "wraps"
    yield "rule 0: W for the end mark", with_rule(A, 0, (4, 2, 4)), "wraps"
    yield "rule 0: S is a token", with_rule(A, 0, (4, 0, 5)), "starts", "reachable"
    yield "rule 0: S is W", with_rule(A, 0, (4, 4, 5)), "starts", "reachable"
    yield "rule 0: S is none", with_rule(A, 0, (4, NONE, 5)), "starts", "reachable"
    yield "rule 0 at the end", changed(A, rules=A[2][1:] + A[2][:1]), None
    yield "left side a token", changed(A, rules=A[2] + [(1, 0, 0)]), "lefts"
    yield "left side W", changed(A, rules=A[2][:1] + [(4, 2, 2)] + A[2][1:]), "lefts"
    yield "left side the end mark", changed(A, rules=A[2] + [(5, 0, 0)]), "lefts"
    yield "left side past N", changed(A, rules=A[2] + [(6, 0, 0)]), "lefts"
    yield "left side none", changed(A, rules=A[2] + [(NONE, 0, 0)]), "lefts"
    yield "first is W", changed(A, rules=A[2] + [(3, 4, 0)]), "firsts"
    yield "first is the end mark", changed(A, rules=A[2] + [(3, 5, 0)]), "firsts"
    yield "first past N", changed(A, rules=A[2] + [(3, 6, 0)]), "firsts"
    yield "first is none", changed(A, rules=A[2] + [(3, NONE, NONE)]), "firsts"
    yield "second is W", changed(A, rules=A[2] + [(3, 0, 4)]), "seconds"
    yield "second is the end mark", changed(A, rules=A[2] + [(3, 0, 5)]), "seconds"
    yield "second past N", changed(A, rules=A[2] + [(3, 0, MAX_SYMBOLS)]), "seconds"
    yield "second is 0xFFFE", changed(A, rules=A[2] + [(3, 0, NONE - 1)]), "seconds"
    yield "rules of one left side apart", changed(A, rules=A[2] + [(2, 1, 1)]), "adjacent"
    yield "rules of one left side apart, at once", changed(A, rules=[A[2][0], A[2][1], A[2][3], A[2][2]]), "adjacent"
    yield "two rules equal, adjacent", changed(A, rules=A[2][:3] + [A[2][2]] + A[2][3:]), "distinct"
    yield "two rules equal, first and last", changed(A, rules=A[2][:3] + [(2, 1, 1), A[2][1]] + A[2][3:]), "distinct"
    yield "two rules equal in left side and first", changed(A, rules=A[2][:3] + [(2, 0, 0)] + A[2][3:]), None
    yield "A ::= B behind B", changed(A, rules=A[2] + [(3, 2, NONE)]), "unary-below"
    yield "A ::= B before B", changed(A, rules=A[2][:3] + [(2, 3, NONE)] + A[2][3:]), None
    yield "A ::= A", changed(A, rules=A[2][:3] + [(2, 2, NONE)] + A[2][3:]), "unary-below"
    yield "A ::= B and B ::= A", changed(A, rules=A[2][:3] + [(2, 3, NONE)] + A[2][3:] + [(3, 2, NONE)]), "unary-below"
    yield "A ::= 0 behind token rules", changed(A, rules=A[2] + [(3, 0, NONE)]), None
    using_4 = A[2][1:3] + [(2, 1, 4)] + A[2][3:]
    yield "nonterminal without a rule", pack(7, 2, [(5, 2, 6)] + using_4), "productive"
    yield "nonterminal that needs itself", pack(7, 2, [(5, 2, 6)] + using_4 + [(4, 4, 0)]), "productive"
    yield "nonterminals that need each other", pack(8, 2, [(6, 2, 7)] + using_4 + [(4, 5, 0), (5, 4, 0)]), "productive"
    yield "S derives nothing", pack(6, 2, [(4, 2, 5), (2, 2, 3), (3, 1, 1)]), "productive"
    yield "productive in many rounds", pack(12, 1, [(10, 1, 11)] + [(i, i + 1, i + 1) for i in range(1, 9)] + [(9, 0, NONE)]), None
    yield "nonterminal that no rule uses", LOOSE, "reachable"
    yield "nonterminal that no rule uses, though it uses S", pack(7, 2, [(5, 2, 6)] + A[2][1:] + [(4, 2, 2)]), "reachable"
    yield "nonterminal that only its own rules use", pack(7, 2, [(5, 2, 6)] + A[2][1:] + [(4, 4, 0), (4, 0, NONE)]), "reachable"
    yield "nonterminals that only each other use", RING, "reachable"
    yield "forty nonterminals that no rule uses", FORTY, "reachable"
    yield "the last nonterminal out of reach", pack(6, 1, [(4, 1, 5), (1, 2, NONE), (2, 0, NONE), (3, 0, NONE)]), "reachable"
    yield "the first nonterminal out of reach", pack(6, 1, [(4, 2, 5), (1, 0, NONE), (2, 3, NONE), (3, 0, NONE)]), "reachable"
    yield "reached as a second symbol alone", pack(6, 1, [(4, 1, 5), (1, 0, 2), (2, 0, 3), (3, 0, NONE)]), None
    yield "reachable in many rounds", pack(12, 1, [(10, 9, 11), (1, 0, NONE)] + [(i, 0, i - 1) for i in range(2, 10)]), None
    yield "token that no rule uses", pack(*UNUSED_TOKEN), None
    yield "no bytes", b"", None
    yield "10 bytes", a[:10], None
    yield "11 bytes", a[:11], None
    yield "11 bytes, R = 0", pack(6, 2, []), None
    yield "11 bytes, R = 1", pack(6, 2, [], count=1), None
    yield "version 0", changed(A, version=0), None
    yield "version 2", changed(A, version=2), None
    yield "L one less", changed(A, length=34), None
    yield "L one more", changed(A, length=36), None
    yield "L high byte", changed(A, length=0x01000023), None
    yield "L second byte", changed(A, length=0x00010023), None
    yield "L little-endian", changed(A, length=0x23000000), None
    yield "one byte less", a[:-1], None
    yield "one byte more", a + b"\0", None
    yield "one byte less, L too", changed(A, length=34)[:-1], None
    yield "one byte more, L too", changed(A, length=36) + b"\0", None
    yield "R one less", changed(A, count=3), None
    yield "R one more", changed(A, count=5), None
    yield "malformed and broken", changed(A, n=MAX_SYMBOLS + 1, version=2), None
    yield f"R = {MAX_RULES + 1} and truncated", pack(*wide(50, MAX_RULES + 1))[:-6], None
    yield "R = 65535 in the header alone", changed(A, count=65535), None


def reached_part(n, t, rules):
    """A grammar without the nonterminals that S does not reach: the others keep their order, and are numbered from T on."""
    kept = list(range(t)) + sorted(reached(rules).intersection(range(t, n - 2))) + [n - 2, n - 1]
    number = {x: i for i, x in enumerate(kept)} | {NONE: NONE}
    return len(kept), t, [tuple(number[x] for x in rule) for rule in rules if rule[0] in number]


def grammar(rng):
    """A grammar that is often accepted: blocks of rules, unary rules mostly downwards, mostly all reached from S."""
    t = rng.randint(1, 4)
    k = rng.randint(1, 5)
    n = t + k + 2
    order = rng.sample(range(t, t + k), k)
    rules = [(n - 2, rng.randrange(t, t + k), n - 1)]
    for i, a in enumerate(order):
        block = []
        for _ in range(rng.randint(1, 3)):
            kind = rng.random()
            later = order[i + 1:] if rng.random() < 0.95 else order
            if kind < 0.25 and later:
                block.append((a, rng.choice(later), NONE))
            elif kind < 0.5:
                block.append((a, rng.randrange(t), NONE))
            else:
                low = t if rng.random() < 0.5 else t + k
                block.append((a, rng.randrange(low), rng.randrange(low)))
        rules += block if rng.random() < 0.1 else list(dict.fromkeys(block))
    return (n, t, rules) if rng.random() < 0.25 else reached_part(n, t, rules)


def damaged(rng, case):
    """One change that a careless writer or a bad disk makes."""
    n, t, rules = case
    rules = list(rules)
    kind = rng.randrange(12)
    if kind == 0:
        i = rng.randrange(len(rules))
        rule = list(rules[i])
        rule[rng.randrange(3)] = rng.choice([0, t - 1, t, n - 3, n - 2, n - 1, n, NONE, rng.randrange(n)])
        rules[i] = tuple(rule)
    elif kind == 1:
        i, j = rng.randrange(len(rules)), rng.randrange(len(rules))
        rules[i], rules[j] = rules[j], rules[i]
    elif kind == 2:
        rules.insert(rng.randrange(len(rules) + 1), rng.choice(rules))
    elif kind == 3:
        del rules[rng.randrange(len(rules))]
    elif kind == 4:
        n = max(0, n + rng.choice([-2, -1, 1, 2]))
    elif kind == 5:
        t = max(0, t + rng.choice([-1, 1]))
    elif kind == 6:
        rules.insert(rng.randrange(len(rules) + 1), tuple(rng.randrange(n) for _ in range(3)))
    data = bytearray(pack(n, t, rules))
    if kind == 7:
        data[rng.randrange(len(data))] ^= 1 << rng.randrange(8)
    elif kind == 8:
        data = data[:rng.randrange(len(data))]
    elif kind == 9:
        data += bytes(rng.randrange(1, 7))
    elif kind == 10:
        data[rng.randrange(min(11, len(data)))] = rng.randrange(256)
    elif kind == 11:
        for _ in range(rng.randint(1, 4)):
            data[rng.randrange(11, len(data))] = rng.choice([0, 1, 2, 255])
    return bytes(data)


def unlabelled():
    rng = random.Random(20210301)
    for _ in range(1500):
        yield pack(*grammar(rng))
    for _ in range(2500):
        yield damaged(rng, grammar(rng))
    for _ in range(300):
        yield bytes(rng.choice([0, 1, 2, 11, 17, 255]) for _ in range(rng.randrange(40)))
    for _ in range(200):
        rules = [tuple(rng.choice([0, 1, 2, 3, 4, 5, NONE]) for _ in range(3)) for _ in range(rng.randint(1, 4))]
        yield pack(rng.randint(0, 7), rng.randint(0, 4), rules)


def record(label, data):
    text = label.encode()
    return struct.pack(">BH", len(text), len(data)) + text + data


def rows(n, rules):
    """The table of an accepted grammar, a row a line, its words in hexadecimal."""
    word = lambda row, k: sum(1 << y % WORD_BITS for y in row if y // WORD_BITS == k)
    return "".join(" ".join("%016x" % word(row, k) for k in range(ROW_WORDS)) + "\n" for row in table(n, rules))


def tables():
    """Accepted grammars for their tables: random ones, and the longest chains of first symbols, upwards and downwards."""
    rng = random.Random(20210302)
    n, last, w, end = MAX_SYMBOLS, MAX_SYMBOLS - 3, MAX_SYMBOLS - 2, MAX_SYMBOLS - 1
    yield "table up", (n, 2, [(w, 2, end)] + [(i, i + 1, 0) for i in range(2, last)] + [(last, 1, NONE)])
    yield "table down", (n, 2, [(w, last, end)] + [(2, 1, NONE)] + [(i, i - 1, 0) for i in range(3, last + 1)])
    made = 0
    while made < 150:
        case = grammar(rng)
        if accepted(*case):
            made += 1
            yield "table %d" % made, case


def cases():
    """Standard input and output of the program."""
    labelled = list(named()) + [(label, pack(*case), None) for label, case in tables()]
    given, wanted = b"", ""
    for label, data, *fields in labelled:
        assert fields == [None] or broken(*parse(data)) == fields, (label, broken(*parse(data)))
        given += record(label, data)
        wanted += "%s %d\n" % (label, answer(data))
        if answer(data) == 0:
            n, t, rules = parse(data)
            wanted += rows(n, rules)
    for data in unlabelled():
        given += record("", data)
        wanted += str(answer(data))
    return given, (wanted + "\n").encode()


def main(words):
    if words and words != ["--record"]:
        for path in words:
            with open(path, "rb") as file:
                print(answer(file.read()))
        return 0
    failed = 0
    for part, data in zip(("stdin", "stdout"), cases()):
        path = os.path.join(PROGRAM, part)
        if words:
            with open(path, "wb") as file:
                file.write(data)
            print("wrote", part, len(data))
        else:
            with open(path, "rb") as file:
                same = file.read() == data
            print(f"{part}: {len(data)} bytes, {'same' if same else 'DIFFERS'}")
            failed += not same or not data
    return 1 if failed else 0


if __name__ == "__main__":
    sys.exit(main(sys.argv[1:]))
