"""The built library, as Python calls: the exported functions of crate `host`, over a shared object made of the static library.

Words are ctypes arrays with the length that the host lends; a state is a forest_model.State. Each call answers as its namesake in forest_model.py.
"""

import ctypes
import os

import forest_model as forest

HERE = os.path.dirname(os.path.abspath(__file__))
SHARED = os.environ.get("BRINESADDLE_LIBRARY", os.path.join(os.path.dirname(HERE), "target", "staticlib", "libhost.so"))

u8, u16, u32, u64, size = ctypes.c_uint8, ctypes.c_uint16, ctypes.c_uint32, ctypes.c_uint64, ctypes.c_size_t
library = ctypes.CDLL(SHARED)


def slice_of(word):
    return [ctypes.POINTER(word), size]


FILE, STATE, STATE_BY_VALUE = slice_of(u8), [ctypes.POINTER(size)] * 3, [size] * 3
WORDS = slice_of(u32) + slice_of(u32) + slice_of(u64) + slice_of(u32) + slice_of(u16)
OUT = [ctypes.POINTER(size)]
NODE = [ctypes.POINTER(u32)]


class Record(ctypes.Structure):
    """struct brinesaddle_item."""
    _fields_ = [(name, u32) for name in ("rule", "left", "first", "second", "origin")]


for name, parameters in {
    "check": FILE,
    "start": FILE + STATE + WORDS,
    "token": FILE + STATE + WORDS + [u32],
    "run": FILE + STATE + WORDS + slice_of(u16) + OUT,
    "kinds": FILE + STATE + WORDS + slice_of(u16),
    "run_kinds": FILE + STATE + WORDS + slice_of(u16) + OUT,
    "finished": FILE + STATE_BY_VALUE + WORDS + [ctypes.POINTER(u32)] * 2,
    "latest_set": FILE + STATE_BY_VALUE + WORDS + OUT + OUT,
    "expected": FILE + STATE_BY_VALUE + WORDS + slice_of(u16) + OUT,
    "listing": FILE + STATE_BY_VALUE + WORDS + slice_of(u8) + OUT,
    "latest_words": FILE + STATE_BY_VALUE + WORDS + slice_of(u32) + OUT,
    "latest_records": FILE + STATE_BY_VALUE + WORDS + slice_of(Record) + OUT,
    "node_write": slice_of(u16) + [size] + NODE + OUT + OUT,
    "node_read": slice_of(u16) + [size] + NODE + OUT + OUT,
    "node_walk": slice_of(u16) + [size] + OUT + OUT + OUT,
    "translate": slice_of(u8) + slice_of(u8) + OUT + [ctypes.POINTER(u32)],
}.items():
    function = getattr(library, "brinesaddle_" + name)
    function.argtypes, function.restype = parameters, u32


def array(word, numbers):
    """An array of words; an empty one still has an address."""
    made = (word * max(1, len(numbers)))(*numbers)
    return made, len(numbers)


class Lent:
    """The words lent to a parse, and the host's three words of its state."""

    def __init__(self, buffers):
        self.parts = [array(word, words) for word, words in zip((u32, u32, u64, u32, u16), buffers.words())]
        self.set, self.held, self.used = size(0), size(0), size(0)

    def words(self):
        return [made[:length] for made, length in self.parts]

    def lent(self):
        return [argument for part in self.parts for argument in part]

    def buffers(self):
        return forest.Buffers(*self.words())

    def state(self):
        return forest.State(self.set.value, self.held.value, self.used.value)


class File:
    """A grammar file, as the library takes it."""

    def __init__(self, data):
        self.lent = array(u8, data)


def check(file):
    return library.brinesaddle_check(*file.lent)


def by_reference(state, lent):
    lent.set.value, lent.held.value, lent.used.value = state
    return [ctypes.byref(word) for word in (lent.set, lent.held, lent.used)]


def begin(file, state, lent):
    answer = library.brinesaddle_start(*file.lent, *by_reference(state, lent), *lent.lent())
    return answer, lent.state()


def token(file, state, lent, number):
    answer = library.brinesaddle_token(*file.lent, *by_reference(state, lent), *lent.lent(), number)
    return answer, lent.state()


def some_run(call, file, state, lent, words):
    taken = size(0xBAD)
    answer = call(*file.lent, *by_reference(state, lent), *lent.lent(), *array(u16, words), ctypes.byref(taken))
    return answer, lent.state(), taken.value


def run(file, state, lent, tokens):
    return some_run(library.brinesaddle_run, file, state, lent, tokens)


def kinds(file, state, lent, position):
    answer = library.brinesaddle_kinds(*file.lent, *by_reference(state, lent), *lent.lent(), *array(u16, position))
    return answer, lent.state()


def run_kinds(file, state, lent, words):
    """The words are those of model.words_of_positions, or any."""
    return some_run(library.brinesaddle_run_kinds, file, state, lent, words)


def finished(file, state, lent):
    """The answer, whether it is finished, and the handle."""
    yes, handle = u32(0xBAD), u32(0xBAD)
    answer = library.brinesaddle_finished(*file.lent, *state, *lent.lent(), ctypes.byref(yes), ctypes.byref(handle))
    assert yes.value in (0, 1), f"finished says {yes.value}"
    return answer, yes.value == 1, handle.value


def latest_set(file, state, lent):
    """The answer, the place of the first word and the number of words."""
    first, count = size(0xBAD), size(0xBAD)
    answer = library.brinesaddle_latest_set(*file.lent, *state, *lent.lent(), ctypes.byref(first), ctypes.byref(count))
    return answer, first.value, count.value


class OnBuffers:
    """The same calls as forest_model.py has them: over a file's bytes and the model's words, which are left as the library leaves them."""

    @staticmethod
    def call(function, file, state, buffers, *more):
        lent = Lent(buffers)
        answer = function(File(file), state, lent, *more)
        for words, left in zip(buffers.words(), lent.words()):
            words[:] = left
        return answer

    def __getattr__(self, name):
        return lambda *arguments: self.call(globals()[name], *arguments)

    def latest_set(self, file, state, buffers):
        answer, first, count = self.call(latest_set, file, state, buffers)
        return answer, buffers.items[first:first + count]


BEHIND = 8  # elements behind a place, which are not lent


def fill(call, element, file, state, lent, place):
    """The answer and the count of a report. The place, a list, is left as the call leaves it."""
    made = (element * (len(place) + BEHIND))(*place)
    memory, end = (u8 * ctypes.sizeof(made)).from_buffer(made), len(place) * ctypes.sizeof(element)
    memory[end:] = [0xAB] * (len(memory) - end)
    count = size(0xBAD)
    answer = call(*file.lent, *state, *lent.lent(), made, len(place), ctypes.byref(count))
    assert set(memory[end:]) == {0xAB}, "written behind the place"
    place[:] = made[:len(place)]
    return answer, count.value


def expected(file, state, lent, place):
    return fill(library.brinesaddle_expected, u16, file, state, lent, place)


def listing(file, state, lent, place):
    return fill(library.brinesaddle_listing, u8, file, state, lent, place)


def latest_words(file, state, lent, place):
    return fill(library.brinesaddle_latest_words, u32, file, state, lent, place)


def latest_records(file, state, lent, place):
    """The elements of the place are the five numbers of a record each."""
    answer = fill(library.brinesaddle_latest_records, Record, file, state, lent, place)
    place[:] = [tuple(getattr(record, name) for name, _ in Record._fields_) for record in place]
    return answer


def node_write(store, position, numbers):
    """The answer, the position behind, the place of a refusal (of both the word as it was, 0xBAD, where it is not written), and the units."""
    units, length = array(u16, store)
    behind, place = size(0xBAD), size(0xBAD)
    answer = library.brinesaddle_node_write(units, length, position, array(u32, numbers)[0], ctypes.byref(behind), ctypes.byref(place))
    return answer, behind.value, place.value, units[:length]


def node_read(store, position):
    """The answer, the node's numbers, the position behind and the place of a refusal, each as it was where it is not written."""
    units, length = array(u16, store)
    node, behind, place = array(u32, [0xBAD] * 5)[0], size(0xBAD), size(0xBAD)
    answer = library.brinesaddle_node_read(units, length, position, node, ctypes.byref(behind), ctypes.byref(place))
    assert units[:length] == store
    return answer, node[:5], behind.value, place.value


def node_walk(store, position):
    """The answer, the number of nodes, the position behind and the place of a refusal, or the word as it was."""
    units, length = array(u16, store)
    count, behind, place = size(0xBAD), size(0xBAD), size(0xBAD)
    answer = library.brinesaddle_node_walk(units, length, position, ctypes.byref(count), ctypes.byref(behind), ctypes.byref(place))
    assert units[:length] == store
    return answer, count.value, behind.value, place.value


def copied(data):
    """Bytes as an array of their own; an empty one still has an address."""
    return (u8 * max(1, len(data))).from_buffer_copy(bytes(data) or b"\x00"), len(data)


def translate(written, lent):
    """As its namesake in translate.py, over so many bytes of output that hold something: what is not the file's must stay as it was."""
    before = bytes((7 * place + 5) % 251 for place in range(lent))
    out, out_len = copied(before)
    length, empty = size(0xBAD), u32(0xBAD)
    number = library.brinesaddle_translate(*copied(written), out, out_len, ctypes.byref(length), ctypes.byref(empty))
    after = bytes(out[:lent])
    if number:
        assert after == before and (length.value, empty.value) == (0xBAD, 0xBAD), f"{number} leaves something else"
        return number, None, None
    assert after[length.value:] == before[length.value:] and length.value <= lent and empty.value in (0, 1)
    return 0, after[:length.value], empty.value == 1


# ------------------------------------------------------------------------------------------------------------- Trees

library.brinesaddle_count.argtypes = slice_of(u16) + [size, ctypes.POINTER(u64), ctypes.POINTER(size)]
library.brinesaddle_tree.argtypes = slice_of(u16) + [size, u64] + slice_of(u32) + OUT + OUT


def count(store, handle):
    """As its namesake in forest_model.py: what is told beside the number, the other word being as it was."""
    units, length = array(u16, store)
    trees, place = u64(0xBAD), size(0xBAD)
    answer = library.brinesaddle_count(units, length, handle, ctypes.byref(trees), ctypes.byref(place))
    assert units[:length] == store
    assert (trees.value == 0xBAD or answer == 0) and (place.value == 0xBAD or answer == 12), f"{answer} writes another word"
    return answer, {0: trees.value, 12: place.value}.get(answer)


def tell(store, handle, k, place):
    """As its namesake in forest_model.py."""
    units, length = array(u16, store)
    out = (u32 * (len(place) + BEHIND))(*place, *[0xABAB] * BEHIND)
    count, fault = size(0xBAD), size(0xBAD)
    answer = library.brinesaddle_tree(units, length, handle, k, out, len(place), ctypes.byref(count), ctypes.byref(fault))
    assert units[:length] == store and out[len(place):] == [0xABAB] * BEHIND, "written behind the place"
    assert fault.value == 0xBAD or answer == 12, f"{answer} writes the place of a fault"
    return answer, count.value, fault.value if answer == 12 else None, out[:len(place)]
