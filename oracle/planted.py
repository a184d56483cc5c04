#!/usr/bin/env python3
"""The program that compares the two engines finds a fault in the main one. A copy of the sources with one edit is built without proof (`rt try`), and
what it writes for an input is the shortest beginning on which the engines part. (No proved build ever writes such lines.)"""

import pathlib
import shutil
import subprocess
import sys
import tempfile

import model
from plain_engine import input_of

ROOT = pathlib.Path(__file__).resolve().parent.parent

# What is wrong; the file, the line and what it becomes; the grammar, the tokens, and what is written.
EDITS = [
    ("the first item whose second is completed is passed over", "completion/src/medial.rt",
     "        for place in self.medial_item_set_range(from, to, pair.symbol) {", "        for place in self.medial_item_set_range(from, to, pair.symbol).skip(1) {",
     model.GRAMMAR_A, [0, 1, 0, 1, 0], ["compared 3", "stopped 0", "disagreement 3", "main no", "plain yes"]),
    ("finished behind every rule but one", "recognizer/src/within.rt",
     "    (starts[state.set] as usize) < state.items && item::rule(items, state.items - 1) == 0",
     "    (starts[state.set] as usize) < state.items && item::rule(items, state.items - 1) != 1",
     model.GRAMMAR_A, [0, 1, 0], ["compared 2", "stopped 0", "disagreement 2", "main yes", "plain no"]),
]


def run(tree, edit, data):
    """What the copy with an edit writes, built with checks and no proof, and what `rt try` says of the run."""
    name, old, new = edit
    path = tree / "crates" / name
    text = path.read_text()
    assert text.count(old + "\n") == 1, f"{name} has another number of lines {old!r} than one"
    path.write_text(text.replace(old + "\n", new + "\n"))
    done = subprocess.run(["rt", "try"], cwd=tree / "crates" / "compare", input=data, capture_output=True)
    path.write_text(text)
    return done.stdout.decode(), done.stderr.decode()


def main():
    with tempfile.TemporaryDirectory() as folder:
        tree = pathlib.Path(folder)
        shutil.copy(ROOT / "crates.txt", tree)
        for source in sorted((ROOT / "crates").glob("*/src")):
            shutil.copytree(source, tree / "crates" / source.parent.name / "src")
        for what, file, old, new, grammar, tokens, lines in EDITS:
            written, said = run(tree, (file, old, new), input_of(grammar, tokens))
            if written != "".join(line + "\n" for line in lines) or "run=ended status=0" not in said:
                sys.exit(f"{what}: not found\n{written}{said}")
            print(f"{what}: {', '.join(lines)}")


if __name__ == "__main__":
    main()
