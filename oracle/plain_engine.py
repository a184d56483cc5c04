"""C-24 from the rules alone: what the plain engine answers and leaves, and the lines of the program that compares the two engines; and both as
they are built, the call of the library and the program."""

import ctypes
import subprocess

import forest_model as forest
import library
import model
import sentences

MOST, MOST_COMPARED = 64, 32
ROOM_REFUSALS = (7, 8, 9, 14)
AS_IT_WAS = 0xBAD  # what stands in a word that a call may leave


def needed(tokens):
    """The words of the table of so many tokens."""
    return 8 * (tokens * (tokens + 1) // 2)


def place(tokens, length, begin):
    """The row of a stretch."""
    return (length - 1) * tokens - (length - 1) * (length - 2) // 2 + begin


def table(rules, tokens):
    """Its words: bit X of a stretch's row where X derives it."""
    words = [0] * needed(len(tokens))
    for length in range(1, len(tokens) + 1):
        for begin in range(len(tokens) - length + 1):
            row = sum(1 << symbol for symbol in rules.derives(tuple(tokens[begin:begin + length])))
            at = 8 * place(len(tokens), length, begin)
            words[at:at + 8] = [row >> 64 * word & (1 << 64) - 1 for word in range(8)]
    return words


def plain(file, tokens, words, rules=None):
    """The number, the word of yes or no, the count, and the words after."""
    number, grammar = model.check(file)
    if number:
        return number, AS_IT_WAS, 0, words
    if not tokens:
        return 0, 0, 0, words
    if any(token >= grammar.tokens for token in tokens):
        return 5, AS_IT_WAS, 0, words
    if len(tokens) > MOST:
        return 22, AS_IT_WAS, 0, words
    count = needed(len(tokens))
    if len(words) < count:
        return 13, AS_IT_WAS, count, words
    rules = rules or sentences.Rules(grammar)
    return 0, int(rules.is_sentence(tuple(tokens))), count, table(rules, tokens) + words[count:]


# ------------------------------------------------------------------------------------------------- The library's call

call = library.library.brinesaddle_plain
call.argtypes = (library.FILE + library.slice_of(library.u16) + library.slice_of(library.u64) + [ctypes.POINTER(library.u32)] + library.OUT)
call.restype = library.u32


class Call:
    """One call, made ready: `make` makes it, and takes no time of its own."""

    def __init__(self, file, tokens, words):
        self.table, self.length = library.array(library.u64, words)
        self.yes, self.count = library.u32(AS_IT_WAS), library.size(AS_IT_WAS)
        self.arguments = [*library.File(file).lent, *library.array(library.u16, tokens), self.table, self.length,
                          ctypes.byref(self.yes), ctypes.byref(self.count)]

    def make(self):
        self.number = call(*self.arguments)

    def told(self):
        return self.number, self.yes.value, self.count.value, self.table[:self.length]


def plain_of_library(file, tokens, words):
    """The same as `plain`, of the built library."""
    made = Call(file, tokens, words)
    made.make()
    return made.told()


# ------------------------------------------------------------------------------------------------- The program's lines

def main_says(file, tokens):
    """The main engine on all tokens, by the model with every capacity at its largest: its number, and whether all are taken and finished."""
    buffers = forest.Buffers.spare()
    number, state = model.begin(file, forest.FRESH, buffers)
    assert number == 0
    number, state, taken = model.run(file, state, buffers, tokens)
    return number, taken == len(tokens) and bool(forest.finished(file, state, buffers)[1])


def compared(data, says=main_says):
    """The whole output of the program for an input."""
    word = lambda at: int.from_bytes(data[at:at + 2], "big")
    if len(data) < 11 or data[0] != 1 or int.from_bytes(data[1:5], "big") != 11 + 6 * word(9):
        return b"grammar 1\n"
    length = 11 + 6 * word(9)
    number, grammar = (2, None) if word(9) > model.MAX_RULES else model.check(data[:length])
    if number:
        return b"grammar %d\n" % number
    file, tokens = data[:length], model.driver_tokens(data[length:])
    if len(tokens) > MOST_COMPARED:
        return b"tokens 22\n"
    rules, agreed, parting = sentences.Rules(grammar), 0, b"disagreement none\n"
    for beginning in range(len(tokens) + 1):
        stopped, yes = says(file, tokens[:beginning])
        if stopped in ROOM_REFUSALS:
            break
        other = all(token < grammar.tokens for token in tokens[:beginning]) and rules.is_sentence(tuple(tokens[:beginning]))
        if yes != other:
            answers = [b"yes" if answer else b"no" for answer in (yes, other)]
            parting = b"disagreement %d\nmain %s\nplain %s\n" % (beginning, *answers)
            break
        agreed += 1
    return b"compared %d\nstopped %d\n" % (agreed, stopped) + parting


def output(program, data):
    """What the program writes."""
    done = subprocess.run([program], input=data, capture_output=True, timeout=60)
    return done.stdout if (done.returncode, done.stderr) == (0, b"") else done


def input_of(file, tokens):
    return file + b"".join(token.to_bytes(2, "big") for token in tokens)
