#!/usr/bin/env python3
"""Replays the recorded states of the Rust on the built library, word by word: tests/replayed.

After the start and after each token, accepted or not: the answer, the set and the item count, finished, where the latest set stands, and every
word of origins, rules, starts, rows and queue, at the largest capacities. Prints for each file how many records, tokens and words were compared and
how many words differed; fails where one of the first three is 0 or the last is not. The room and the sums of a record are left out, as the
library does not tell them: compare.py holds the model to those. Handles and units are not recorded: forests.py and differential.py compare them.
"""

import os
import sys
from array import array

import forest_model as forest
import generate
import library
import streams

FILES = ["states_small.txt", "states_large.txt", "states_forged.txt"]
WORDS = [("origins", "I"), ("rules", "I"), ("starts", "I"), ("rows", "Q"), ("queue", "I")]  # each with its type code
ITEM = forest.Buffers.ITEM_WORDS


def records(name):
    """The records of a file: the case, the chart before its tokens, the answer to each."""
    with open(os.path.join(streams.VECTORS, name)) as file:
        numbers = streams.Numbers([int(number) for number in file.read().split()])
    for _ in range(numbers.next()):
        case = streams.read_case(numbers)
        yield case, *streams.read_answers(numbers, case)
    assert not numbers, f"{name} goes on behind its last record"


def chart_words(chart):
    """The words that a chart tells, of each kind; those behind them are 0."""
    return [[origin for origin, _ in chart.items], [rule for _, rule in chart.items], chart.starts, streams.row_words(chart.rows), []]


def lent_words(lent):
    """The same of the lent words."""
    (items, length), *others, _ = lent.parts
    return [(array("I", items[word:length:ITEM]), length // ITEM) for word in (0, 1)] + others


class Replay:
    """The replay of a file: the words of a parse, which serve every record, and the counts."""

    def __init__(self, name):
        self.name, self.lent = name, library.Lent(forest.Buffers.spare())
        self.records = self.tokens = self.words = self.different = 0

    def same(self, what, words, recorded):
        """Compares words, and says where the first differs."""
        self.words += len(recorded)
        places = [place for place, (word, wanted) in enumerate(zip(words, recorded, strict=True)) if word != wanted]
        self.different += len(places)
        if places:
            first = places[0]
            print(f"{self.name}, record {self.records}, token {self.tokens}: {what}, word {first}: {words[first]}, recorded {recorded[first]}")

    def whole(self, file, chart):
        """Compares the whole parse with a recorded chart."""
        state = self.lent.state()
        first, behind = chart.starts[-2:]
        self.same("state", state[:2], (chart.set_number, len(chart.items)))
        self.same("finished", library.finished(file, state, self.lent)[:2], (0, chart.finished))
        self.same("latest set", library.latest_set(file, state, self.lent), (0, ITEM * first, ITEM * (behind - first)))
        for (what, code), (words, length), told in zip(WORDS, lent_words(self.lent), chart_words(chart)):
            recorded = array(code, told + [0] * (length - len(told)))
            if bytes(words) == recorded.tobytes():
                self.words += length
            else:
                self.same(what, words[:length], recorded)

    def begin(self, file, chart):
        """Starts a parse; where the record has a chart of its own, puts that into the cleared words, with a leaf for each item's node."""
        answer, _ = library.begin(file, forest.FRESH, self.lent)
        self.same("start", [answer], [0])
        if chart is not None:
            state, buffers = generate.rooms_with_store(chart, None, units=0)
            for (words, _), told in zip(self.lent.parts, buffers.words()):
                words[:len(told)] = told
            self.lent.set.value, self.lent.held.value, self.lent.used.value = state

    def record(self, case, chart, answers):
        """Replays a record: the chart before its tokens, then the answer to each. A refused token leaves the chart before it."""
        file = library.File(case.file)
        self.begin(file, case.chart)
        self.whole(file, chart)
        for token, recorded in zip(case.tokens, answers):
            answer, _ = library.token(file, self.lent.state(), self.lent, token)
            self.same("answer", [answer], [recorded.number])
            chart = recorded.chart or chart
            self.whole(file, chart)
            self.tokens += 1
        self.records += 1

    def passed(self):
        """Prints the counts."""
        print(f"{self.name}: records {self.records}, tokens {self.tokens}, words {self.words}, different {self.different}")
        return self.records > 0 and self.tokens > 0 and self.words > 0 and self.different == 0


def replay_file(name):
    replay = Replay(name)
    for case, chart, answers in records(name):
        replay.record(case, chart, answers)
    return replay.passed()


if __name__ == "__main__":
    sys.exit(0 if all([replay_file(name) for name in FILES]) else 1)
