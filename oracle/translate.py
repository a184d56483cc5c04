#!/usr/bin/env python3
"""A plain translator of written grammars, written from docs/TRANSLATION.md alone.

    translate.py < WRITTEN > FILE     the file, or nothing; what was answered goes to standard error

Import it to compare with: `translate(written, lent)` answers (number, file, empty), with nothing for the last two where it is refused.
"""

import struct
import sys

MAX_SYMBOLS, MAX_RULES, MAX_PLACES = 512, 2048, 16
HEADER = 9
NONE = 0xFFFF

MALFORMED, CIRCULAR, BARREN, UNREACHABLE, NO_SENTENCE, NO_ROOM = range(16, 22)


# ------------------------------------------------------------------------------------------------- The written form

class Written:
    """T, M, S and the rules, each a left side and a list of symbols."""

    def __init__(self, tokens, nonterminals, start, rules):
        self.tokens, self.nonterminals, self.start, self.rules = tokens, nonterminals, start, rules
        self.end = tokens + nonterminals

    def bytes(self):
        rules = b"".join(struct.pack(f">{2 + len(right)}H", left, len(right), *right) for left, right in self.rules)
        return struct.pack(">B4H", 2, self.tokens, self.nonterminals, len(self.rules), self.start) + rules


def read(written):
    """The grammar, or nothing where the bytes are not of the form."""
    if len(written) < HEADER or written[0] != 2:
        return None
    tokens, nonterminals, count, start = struct.unpack(">4H", written[1:HEADER])
    end = tokens + nonterminals
    if not tokens <= start < end:
        return None
    at, rules = HEADER, []
    for _ in range(count):
        if len(written) < at + 4:
            return None
        left, length = struct.unpack(">2H", written[at:at + 4])
        behind = at + 4 + 2 * length
        if not tokens <= left < end or length > MAX_PLACES or len(written) < behind:
            return None
        right = struct.unpack(f">{length}H", written[at + 4:behind])
        if any(symbol >= end for symbol in right):
            return None
        rules.append((left, list(right)))
        at = behind
    return Written(tokens, nonterminals, start, rules) if at == len(written) else None


# ------------------------------------------------------------------------------------------------- What is refused

def closed(grammar, begin):
    """The symbols that become a list of symbols of `begin`: left sides join where all of their rule's right side is there. Each rule waits for
    as many places as are not there yet."""
    waiting = {}
    missing = [len(right) for left, right in grammar.rules]
    for number, (left, right) in enumerate(grammar.rules):
        for symbol in right:
            waiting.setdefault(symbol, []).append(number)
    found = set(begin)
    todo = list(found)
    for number, (left, right) in enumerate(grammar.rules):
        if not right and left not in found:
            found.add(left)
            todo.append(left)
    while todo:
        for number in waiting.get(todo.pop(), []):
            missing[number] -= 1
            left = grammar.rules[number][0]
            if missing[number] == 0 and left not in found:
                found.add(left)
                todo.append(left)
    return found


def reached(steps, begin):
    """What `begin` leads to, itself included."""
    found = set(begin)
    todo = list(found)
    while todo:
        for symbol in steps.get(todo.pop(), ()):
            if symbol not in found:
                found.add(symbol)
                todo.append(symbol)
    return found


def derives_itself(grammar, empty):
    """Whether a right side becomes its left side alone: a way of single steps, each to one place of a rule whose other places may be empty,
    leads from a symbol back to it. Symbols to which no step leads are taken away until none is left, or none can be."""
    steps, into = {}, {}
    for left, right in grammar.rules:
        filled = [place for place, symbol in enumerate(right) if symbol not in empty]
        targets = set(right) if not filled else {right[filled[0]]} if len(filled) == 1 else set()
        for symbol in targets - steps.setdefault(left, set()):
            steps[left].add(symbol)
            into[symbol] = into.get(symbol, 0) + 1
    todo = [symbol for symbol in steps if not into.get(symbol)]
    left_over = set(steps)
    while todo:
        symbol = todo.pop()
        left_over.discard(symbol)
        for target in steps.get(symbol, ()):
            into[target] -= 1
            if into[target] == 0 and target in steps:
                todo.append(target)
    return bool(left_over)


def refusal(grammar, empty):
    """The lowest of 17 to 20 that applies, or nothing."""
    if derives_itself(grammar, empty):
        return CIRCULAR
    productive = closed(grammar, range(grammar.tokens))
    if grammar.end > 0x10000 or any(symbol not in productive for symbol in range(grammar.tokens, grammar.end)):
        return BARREN
    steps = {}
    for left, right in grammar.rules:
        steps.setdefault(left, []).extend(right)
    reachable = reached(steps, [grammar.start])
    if any(symbol not in reachable for symbol in range(grammar.tokens, grammar.end)):
        return UNREACHABLE
    if grammar.start not in stay(grammar):
        return NO_SENTENCE
    return None


def stay(grammar):
    """The symbols that derive a nonempty string, where every symbol derives some: those with a rule in which one stays."""
    above = {}
    for left, right in grammar.rules:
        for symbol in right:
            above.setdefault(symbol, []).append(left)
    return reached(above, range(grammar.tokens))


# ------------------------------------------------------------------------------------------------- The file

def listed(grammar, empty):
    """N, the number of S, and the list of rules."""
    staying = stay(grammar)
    number = {symbol: place for place, symbol in enumerate(sorted(staying))}
    may_be_empty = {number[symbol] for symbol in staying if symbol in empty}
    fresh = len(number)
    rules = {}  # in the order of the list, each once

    def pair(a, b, c):
        rules.setdefault((a, b, c))
        if c in may_be_empty:
            rules.setdefault((a, b, NONE))
        if b in may_be_empty:
            rules.setdefault((a, c, NONE))

    for left, right in grammar.rules:
        places = [number[symbol] for symbol in right if symbol in staying]
        if not places:
            continue
        a = number[left]
        if len(places) == 1:
            rules.setdefault((a, places[0], NONE))
            continue
        head = places[0]
        for place in places[1:-1]:
            pair(fresh, head, place)
            if head in may_be_empty and place in may_be_empty:
                may_be_empty.add(fresh)
            head, fresh = fresh, fresh + 1
        pair(a, head, places[-1])
    return fresh + 2, number[grammar.start], list(rules)


def in_order(tokens, symbols, rules):
    """The rules of the list, level after level."""
    of = {}
    for rule in rules:
        of.setdefault(rule[0], []).append(rule)
    left, ordered = list(range(tokens, symbols - 2)), []
    while left:
        named = {first for a in left for _, first, second in of.get(a, []) if second == NONE}
        level = [a for a in left if a not in named]
        assert level, "a level is never empty"
        ordered += [rule for a in level for rule in of.get(a, [])]
        left = [a for a in left if a in named]
    return ordered


def translate(written, lent):
    """The answer to these bytes, with `lent` bytes of output: its number, the file, whether the empty sentence was there."""
    grammar = read(written)
    if grammar is None:
        return MALFORMED, None, None
    empty = closed(grammar, [])
    number = refusal(grammar, empty)
    if number is not None:
        return number, None, None
    symbols, start, rules = listed(grammar, empty)
    count = 1 + len(rules)
    length = 11 + 6 * count
    if symbols > MAX_SYMBOLS or count > MAX_RULES or length > lent:
        return NO_ROOM, None, None
    lines = [(symbols - 2, start, symbols - 1)] + in_order(grammar.tokens, symbols, rules)
    file = struct.pack(">BI3H", 1, length, symbols, grammar.tokens, count) + b"".join(struct.pack(">3H", *line) for line in lines)
    return 0, file, grammar.start in empty


def main():
    number, file, empty = translate(sys.stdin.buffer.read(), 1 << 32)
    if number:
        print(f"written {number}", file=sys.stderr)
        return
    sys.stdout.buffer.write(file)
    print("empty yes" if empty else "empty no", file=sys.stderr)


if __name__ == "__main__":
    main()
