"""Rules as people write them: text to a written grammar, the names of the file's symbols, and a refusal in words.

    token when always then pool NAME

    Rule   ::= when Test then Action       # 0 to 16 symbols
             | always Action               # another rule of the same left side
    Weight ::=                             # nothing on the right
             | weight NUMBER

Tokens are numbered in the order of the `token` lines, nonterminals behind them in the order of their first rules; the first left side is the
start symbol.
"""

import pathlib
import subprocess
import sys

ROOT = pathlib.Path(__file__).resolve().parent.parent
sys.dont_write_bytecode = True
sys.path.insert(0, str(ROOT / "oracle"))
import translate

PROGRAM = ROOT / "target/bin/translate"


class Wrong(Exception):
    """What is wrong with a text, with its line where it has one."""


class Text:
    """Token names, nonterminal names, and rules: the line, the left side, the right side."""

    def __init__(self, text):
        self.tokens, self.rules, self.warnings = [], [], []
        left = None
        for line, words in enumerate((line.split("#")[0].split() for line in text.splitlines()), 1):
            if not words:
                continue
            if words[0] == "token":
                self.tokens += words[1:]
                continue
            if words[0] == "|" and left:
                words = [left, "::="] + words[1:]
            if len(words) < 2 or words[1] != "::=":
                raise Wrong(f"line {line}: neither 'token NAME ..', nor 'NAME ::= NAME ..', nor '| NAME ..'")
            left, right = words[0], []
            for word in words[2:] + ["|"]:
                if word == "|":
                    self.rules.append((line, left, right))
                    right = []
                else:
                    right.append(word)
        self.nonterminals = list(dict.fromkeys(left for _, left, _ in self.rules))
        self.judge()

    def judge(self):
        if not self.rules:
            raise Wrong("there is no rule")
        known = set(self.tokens) | set(self.nonterminals)
        seen = {}
        for line, left, right in self.rules:
            if left in self.tokens:
                raise Wrong(f"line {line}: {left} is a token, and has a rule")
            for name in right:
                if name not in known:
                    raise Wrong(f"line {line}: {name} is neither a token nor the left side of a rule")
            if len(right) > translate.MAX_PLACES:
                raise Wrong(f"line {line}: {len(right)} symbols on the right, and {translate.MAX_PLACES} are the most")
            first = seen.setdefault((left, *right), line)
            if first != line:
                self.warnings.append(f"line {line}: the same rule as line {first}")

    def written(self):
        number = {name: at for at, name in enumerate(self.tokens + self.nonterminals)}
        return translate.Written(len(self.tokens), len(self.nonterminals), len(self.tokens),
                                 [(number[left], [number[name] for name in right]) for _, left, right in self.rules])

    def names(self):
        """A line `number name` for each symbol of the file; a new symbol is named by its left side, its line and the places it stands for."""
        names = self.tokens + self.nonterminals
        grammar = self.written()
        staying = translate.stay(grammar)
        made = [names[symbol] for symbol in sorted(staying)]
        for (line, left, _), (_, right) in zip(self.rules, grammar.rules):
            places = [names[symbol] for symbol in right if symbol in staying]
            made += [f"{left}@{line}:{'.'.join(places[:end])}" for end in range(2, len(places))]
        return "".join(f"{number} {name}\n" for number, name in enumerate(made))

    def reason(self, number):
        """Why the proved program refused it, as far as this finds out; the number is the program's."""
        names, grammar = self.tokens + self.nonterminals, self.written()
        nonterminals = range(grammar.tokens, grammar.end)
        empty = translate.closed(grammar, [])
        steps = {}
        for left, right in grammar.rules:
            steps.setdefault(left, []).extend(right)
        if number == translate.CIRCULAR:
            for (line, left, _), (_, right) in zip(self.rules, grammar.rules):
                for place, symbol in enumerate(right):
                    if names[symbol] == left and all(other in empty for other in right[:place] + right[place + 1:]):
                        return f"{left} derives itself: line {line}"
        if number == translate.BARREN:
            fruitful = translate.closed(grammar, range(grammar.tokens))
            return "no token string comes from: " + " ".join(names[a] for a in nonterminals if a not in fruitful)
        if number == translate.UNREACHABLE:
            reached = translate.reached(steps, [grammar.start])
            return f"nothing leads from {names[grammar.start]} to: " + " ".join(names[a] for a in nonterminals if a not in reached)
        if number == translate.NO_SENTENCE:
            return f"{names[grammar.start]} has no sentence but the empty one"
        if number == translate.NO_ROOM:
            symbols, _, rules = translate.listed(grammar, empty)
            return f"{symbols} symbols of {translate.MAX_SYMBOLS}, {1 + len(rules)} rules of {translate.MAX_RULES}"
        return None


def make(text):
    """Of a text: its written grammar, and by the proved program its file, with the names and whether the empty sentence was there."""
    read = Text(text)
    written = read.written().bytes()
    if not PROGRAM.is_file():
        raise Wrong("the program is not built: oracle/program translate")
    ran = subprocess.run([PROGRAM], input=written, capture_output=True, check=True)
    kind, said = ran.stderr.decode().split()
    if kind == "written":
        reason = read.reason(int(said))
        raise Wrong(f"refused {said}" + (f": {reason}" if reason else ""))
    return read, {".written": written, ".grammar": ran.stdout, ".names": read.names().encode()}, said == "yes"
