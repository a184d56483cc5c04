"""The inputs of the timing: grammar files, and token strings that are sentences of them.

    inputs.py DIRECTORY    writes NAME.grammar, NAME.short, NAME.long and NAME.kinds there, for a, b, routing and policy; and NAME.grammar and NAME.long of what
                           tells how the time grows, the names in a file growth

A .short file is STRINGS sentences, a .long file one sentence: tokens in decimal, a sentence a line. A .kinds file is the long sentence as positions of
several kinds, by position how many kinds and then the kinds: each keyword could be a name as well.
"""

import os
import random
import sys
from textwrap import dedent

sys.path.insert(0, os.path.join(os.path.dirname(os.path.abspath(__file__)), "..", "oracle"))

import model

STRINGS = 20000
LONG = 5000  # tokens: with a forest no parse reads many more, as its store is full then
POLICY_LONG = 1500  # the same of policy, which writes more nodes a token
SET_PAIRS = 500  # pairs of tokens of the sentences that make large sets
SEED = 1
DEPTH, DEEP = 12, 40  # past it a derivation takes each symbol's shortest way; policy has chains of its own

# A rule language of 100 symbols: words in capitals are tokens. The blocks of rules stand so that a rule of one symbol leads to a later block.
ROUTING = """
    rules: rules rule | rule
    rule: RULE NAME when then END | RULE NAME then END
    when: WHEN either
    either: either OR both | both
    both: both AND one | one
    one: NOT one | OPEN either CLOSE | test
    test: field relation value | field IN set | field MATCHES STRING | EXISTS field | client
    client: SOURCE IN network | SOURCE EQUAL ADDRESS
    field: HEADER NAME | COOKIE NAME | QUERY NAME | PATH | HOST | PORT | PATH part
    part: SUFFIX | PREFIX
    relation: EQUAL | UNEQUAL | LESS | GREATER
    set: BEGIN values FINISH
    values: values COMMA value | value
    value: NUMBER | STRING | NAME
    network: ADDRESS SLASH NUMBER | ADDRESS
    then: THEN actions | THEN actions ELSE actions
    actions: actions SEMICOLON action | action
    action: POOL NAME weights | POOL NAME | SERVER ADDRESS | REDIRECT target | REJECT NUMBER | LOG STRING | change | bound
    change: SET HEADER NAME EQUAL value | SET COOKIE NAME EQUAL value | REMOVE HEADER NAME
    bound: LIMIT NUMBER PER unit
    unit: SECOND | MINUTE
    target: STRING | HOST STRING | PATH STRING
    weights: WEIGHT NUMBER | STICKY COOKIE NAME
"""

# A rule language of 400 symbols in the same way. {A B C} X stands for A X | B X | C X.
with open(os.path.join(os.path.dirname(os.path.abspath(__file__)), "policy.rules")) as policy:
    POLICY = policy.read()

# Tokens that are no words and so no names.
SIGNS = {"SEMICOLON", "COLON", "COMMA", "DOT", "OPEN", "CLOSE", "BEGIN", "FINISH", "BRACKET", "UNBRACKET", "ASSIGN", "ADDING", "EQUAL", "UNEQUAL", "LESS", "GREATER",
         "ATMOST", "ATLEAST", "BAR", "AMPERSAND", "LEFTWARD", "PLUS", "MINUS", "CONCAT", "STAR", "SLASH", "MODULO", "RAISED", "QUESTION", "NUMBER", "STRING",
         "PATTERN", "ADDRESS", "TIME", "VARIABLE", "NAME"}


def alternatives(sides):
    for side in sides.split(" | "):
        heads, _, rest = side.lstrip("{").partition("}" if side.startswith("{") else " ")
        yield from ([head, *rest.split()] for head in heads.split())


def read_grammar(text):
    """A file with rules of up to two symbols from written ones, and the names of its tokens. A longer right side gets a new nonterminal for each rest, once for
    equal rests."""
    blocks = [line.split(": ") for line in dedent(text).strip().replace("\n    ", " ").splitlines()]
    written = [(left, side) for left, sides in blocks for side in alternatives(sides)]
    lefts = [left for left, _ in blocks]
    tokens = sorted({symbol for _, side in written for symbol in side if symbol.isupper()})
    rules, rests, pending = [], {}, list(written)
    while pending:
        left, side = pending.pop(0)
        if len(side) > 2:
            rest = tuple(side[1:])
            if rest not in rests:
                rests[rest] = "rest " + " ".join(rest)
                pending.append((rests[rest], list(rest)))
            side = [side[0], rests[rest]]
        rules.append((left, side))
    names = tokens + lefts + list(rests.values())
    number = {name: k for k, name in enumerate(names)}
    symbols = len(names) + 2
    coded = [(number[left], number[side[0]], number[side[1]] if len(side) == 2 else None) for left, side in rules]
    return model.make_file(symbols, len(tokens), [(symbols - 2, number[lefts[0]], symbols - 1)] + coded), tokens


class Sentences:
    """Random sentences of an accepted grammar."""

    def __init__(self, file, rng):
        self.grammar, self.rng = model.check(file)[1], rng
        self.shortest = {token: 1 for token in range(self.grammar.tokens)}
        changed = True
        while changed:
            changed = False
            for left, *side in self.grammar.rules[1:]:
                known = [self.shortest.get(symbol) for symbol in side if symbol is not None]
                if None not in known and sum(known) < self.shortest.get(left, sum(known) + 1):
                    self.shortest[left], changed = sum(known), True
        self.sides = {}
        for left, *side in self.grammar.rules:
            self.sides.setdefault(left, []).append(side)

    def length(self, side):
        return sum(self.shortest[symbol] for symbol in side if symbol is not None)

    def chosen(self, sides, depth):
        return self.rng.choice(sides) if depth < DEPTH else min(sides, key=self.length)

    def derived(self, symbol, depth=0):
        if symbol < self.grammar.tokens:
            return [symbol]
        side = self.chosen(self.sides[symbol], depth)
        return [token for part in side if part is not None for token in self.derived(part, depth + 1)]

    def sentence(self):
        return self.derived(self.grammar.rules[0][1])

    def of_lines(self, count):
        """A sentence of at least so many tokens, where S ::= S line | line."""
        sentence = []
        while len(sentence) < count:
            sentence += self.line()
        return sentence

    def line(self):
        return self.derived(self.grammar.rules[1][2])


class RareSentences(Sentences):
    """The same, where a way is the rarer the longer it is, but for the kinds of a line and the length of a list."""

    def __init__(self, file, rng):
        super().__init__(file, rng)
        self.lines = self.sides[self.grammar.rules[1][2]]
        self.weights = {id(sides): [self.weight(sides, side) for side in sides] for sides in list(self.sides.values())[1:]}

    def weight(self, sides, side):
        if sides is self.lines:
            return 1
        if sides[1:] == [[sides[0][1], None]]:  # X ::= X Y | Y
            return 3 if side is sides[0] else 1
        return self.length(side) ** -2.7

    def chosen(self, sides, depth):
        return self.rng.choices(sides, self.weights[id(sides)])[0] if depth < DEEP else min(sides, key=self.length)


def numbers_joined(count):
    """A sentence of A: numbers joined by plus."""
    return [0] + [1, 0] * (count - 1)


def as_kinds(tokens, words):
    """The words of the positions of a sentence in which each word is of its own kind and a name."""
    name = words.index("NAME")
    positions = [[token] if words[token] in SIGNS else sorted([token, name]) for token in tokens]
    return model.words_of_positions(positions)


def inputs(rng):
    """Name, file, short sentences, a long one, and the words of the positions of a long one, each read whole by a parse at the largest capacities. A's long one is
    short of 61 tokens, at which the store is full."""
    routing, words = read_grammar(ROUTING)
    made = Sentences(routing, rng)
    long_one = made.of_lines(LONG)
    joined, triples = numbers_joined(30), [0, 1, 2] * (LONG // 3)
    one_kind = lambda tokens: model.words_of_positions([token] for token in tokens)
    yield "a", model.GRAMMAR_A, [numbers_joined(rng.randint(1, 8)) for _ in range(STRINGS)], joined, one_kind(joined)
    yield "b", model.GRAMMAR_B, [[0, 1, 2] * rng.randint(1, 5) for _ in range(STRINGS)], triples, one_kind(triples)
    yield "routing", routing, [made.line() for _ in range(STRINGS)], long_one, as_kinds(long_one, words)
    policy, words = read_grammar(POLICY)
    made = RareSentences(policy, rng)
    long_one = made.of_lines(POLICY_LONG)
    yield "policy", policy, [made.line() for _ in range(STRINGS)], long_one, as_kinds(long_one, words)


SIZES = (10, 100, 1000)


def sets_grammar():
    """S ::= S P | P, P ::= L | M, and L and M ::= z s for pairs of tokens, so that each z of the first three makes a set of one of SIZES. The
    rules of a z stand in no order of s."""
    tokens = len(SIZES) + max(SIZES) // 2
    s, p, left, right = range(tokens, tokens + 4)
    pairs = [(z, len(SIZES) + k) for z, size in enumerate(SIZES) for k in range(size // 2)]
    random.Random(SEED).shuffle(pairs)
    rules = [(side, *pair) for side in (left, right) for pair in pairs]
    return model.make_file(tokens + 6, tokens, [(tokens + 4, s, tokens + 5), (s, s, p), (s, p, None), (p, left, None), (p, right, None), *rules])


def growing(long_ones):
    """Name, file and sentence: a tenth of a long one and all of it, and sets of each size."""
    for name in ("b", "policy"):
        file, tokens = long_ones[name]
        for count in (len(tokens) // 10, len(tokens) // 10 * 10):
            yield f"{name}-{count}", file, tokens[:count]
    file = sets_grammar()
    for z, size in enumerate(SIZES):
        yield f"sets-{size}", file, [token for k in range(SET_PAIRS) for token in (z, len(SIZES) + 7 * k % (size // 2))]


def write(directory, name, file, **lines):
    answer, grammar = model.check(file)
    assert answer == 0, name
    with open(os.path.join(directory, name + ".grammar"), "wb") as out:
        out.write(file)
    for kind, strings in lines.items():
        with open(os.path.join(directory, f"{name}.{kind}"), "w") as out:
            out.writelines(" ".join(map(str, tokens)) + "\n" for tokens in strings)
    return f"{name}: {grammar.symbols} symbols, {len(grammar.rules)} rules"


def main():
    directory = sys.argv[1]
    os.makedirs(directory, exist_ok=True)
    long_ones = {}
    for name, file, short, long_one, kinds in inputs(random.Random(SEED)):
        told = write(directory, name, file, short=short, long=[long_one], kinds=[kinds])
        print(f"{told}; {len(short)} sentences of {sum(map(len, short)) / len(short):.1f} tokens, one of {len(long_one)}")
        long_ones[name] = file, long_one
    with open(os.path.join(directory, "growth"), "w") as names:
        for name, file, tokens in growing(long_ones):
            print(f"{write(directory, name, file, long=[tokens])}; one sentence of {len(tokens)}")
            names.write(name + "\n")


if __name__ == "__main__":
    main()
