"""What the tables share whose wanted numbers are written out by hand: a parse on the built library, and (expecting.py) what came of the rows."""

import forest_model as forest
import library
import model
from expecting import expect, passed  # noqa: F401

AS_IT_WAS = 0xBAD  # what library.py puts into a word that a call may leave


class Parse:
    """A started parse in words of the capacities I, E, Q and U."""

    def __init__(self, file, items=20, sets=8, queue=8, units=200):
        self.file, self.lent = library.File(file), library.Lent(forest.Buffers.spare(items, sets, queue, units))
        self.start()

    def start(self):
        expect("start", library.begin(self.file, self.lent.state(), self.lent), (0, (0, 0, 0)))

    def token(self, token):
        return library.token(self.file, self.lent.state(), self.lent, token)[0]

    def kinds(self, kinds):
        return library.kinds(self.file, self.lent.state(), self.lent, kinds)[0]

    def tokens(self, tokens):
        """One call a token; the answers."""
        return [self.token(token) for token in tokens]

    def finished(self):
        return library.finished(self.file, self.lent.state(), self.lent)

    def items(self):
        """Origin, rule and handle of each."""
        words = self.lent.words()[0]
        return [tuple(words[3 * place:3 * place + 3]) for place in range(self.lent.state().item_count)]

    def sets(self):
        starts, items = self.lent.words()[1], self.items()
        return [items[starts[k]:starts[k + 1]] for k in range(self.lent.state().set_number + 1)]

    def row(self):
        """The symbols that the latest row holds."""
        row = self.lent.buffers().row(self.lent.state().set_number)
        return [symbol for symbol in range(model.MAX_SYMBOLS) if row & model.bit(symbol)]
