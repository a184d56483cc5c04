#!/usr/bin/env python3
"""Brings the repository's own names of definitions and lemmas to the spelling of today's Rattle; run once, behind port.py.

Words are in snake case (`originAt` is `origin_at`); a dash stays only between two names that stand by themselves, as `length-put`
says of `length` and `put`; elsewhere it is an underscore. Names that Rust source gives and that Rattle makes keep their spelling.
A name is left as it is where the new one stands anywhere already. Prints each name with its new one, and those left.
"""

import os
import re
import subprocess
import sys

WORD = r"[A-Za-z_\u00c0-\u024f\u0370-\u03ff\u2080-\u209c\u2070-\u207f\u2115][\w'\u2080-\u209c\u2070-\u207f\u2115?!-]*"
TOKEN = re.compile(WORD)
SIGNATURE = re.compile(r"^[ ]*(?:unfoldable |abbrev |opaque )?(?:pub )?(?:(?P<kind>data|record) )?(?P<name>" + WORD + r")(?: [({][^\n]*)? ?: ?(?P<type>[^\n]*)$", re.M)
# Names of std that a lemma's name may join.
STD = set("""length take drop set sets get_or append map zip max min sum replicate reverse elem count concat filter fold iterate all any
add mul sub div mod suc zero leb ltb eqb""".split())


# Names that fall together with others when spelt by rule.
HAND = {
    "row_words": "row_words_lem", "rowWords": "row_words", "joined_word": "joined_word_lem", "joinedWord": "joined_word",
    "kept_of": "kept_of_lem", "keptOf": "kept_of", "goes_down": "goes_down_lem", "goesDown": "goes_down",
    "held_in": "held_in_lem", "heldIn": "held_in", "bit-or": "bit_or_lem",
    "cutOff": "cut_off", "headAt": "head_at", "inPlace": "in_place", "itemWords": "item_words", "newItems": "new_items",
    "oneMore": "one_more", "passedOver": "passed_over",
    "ruleAtG": "rule_at_g", "writtenAnswer": "written_answer", "grammarRule": "grammar_rule",
}
# Words that say how names hang together, whatever is called so.
SMALL = set("is are not no none a an of on one two with it now done told in at to by from as".split())


def files(*patterns):
    said = subprocess.run(["git", "ls-files", "-co", "--exclude-standard", "--", *patterns], capture_output=True, text=True, check=True).stdout
    return [f for f in said.split("\n") if f and "/out/" not in f and os.path.isfile(f)]


def read(path):
    with open(path, encoding="utf-8") as f:
        return f.read()


def uncommented(text, mark):
    return "\n".join(line.split(mark, 1)[0] if line.lstrip().startswith(mark) else line for line in text.split("\n"))


def snake(name):
    name = re.sub(r"(?<=[a-z0-9])([A-Z])(?=[a-z])", lambda m: "_" + m.group(1).lower(), name)
    return re.sub(r"(?<=[a-z0-9])([A-Z])(?![a-z])", lambda m: "_" + m.group(1).lower(), name)


def is_camel(name):
    return re.match(r"[a-z]", name) and re.search(r"[a-z0-9][A-Z]", name.split("-")[0])


def joined(name, known):
    """A dashed name as known names with dashes between them, the longest first; where it is more than that, as one name."""
    parts, out, at = name.split("-"), [], 0
    while at < len(parts):
        ends = [end for end in range(len(parts), at, -1) if "_".join(parts[at:end]) in known]
        if not ends:
            return name.replace("-", "_")
        out.append("_".join(parts[at : ends[0]]))
        at = ends[0]
    return "-".join(out)


def spoken_in(path, text):
    """The names that stand in a file by themselves: of an .rt file's code only parameters, locals and fields, as a function may share its definition's."""
    if path.endswith(".antt"):
        text = re.sub(r"(?m)^( *use [A-Za-z_.]+)\.\{", "{", text)
        text = re.sub(r"(?m)^ *use [^{\n]*$", "", text)
        return set(TOKEN.findall(uncommented(text, "--")))
    clauses = "\n".join(re.findall(r"(?m)^ *(?:ghost use .*|(?:requires|ensures)[^{\n]*\{(?:.|\n)*?\}[ ]*$)", text))
    return set(TOKEN.findall(clauses)) | set(re.findall(r"\b(\w+): |let (?:mut )?(\w+)", text) and [a or b for a, b in re.findall(r"\b(\w+): |let (?:mut )?(\w+)", text)])


def main():
    theory = files("crates/*.antt")
    texts = {f: read(f) for f in theory + files("crates/*.rt")}
    own, functions, generated = {}, set(), set()
    for f in theory:
        for m in SIGNATURE.finditer(uncommented(texts[f], "--")):
            name, kind = m.group("name"), m.group("type")
            if name in ("let", "in", "use", "pub", "where", "elim"):
                continue
            if re.match(r"(tie|goal|lts|statement)\b", kind) and not name.endswith("-spec"):
                generated.add(name)
                continue
            own.setdefault(name, f)
            if re.match(r"[^\n]*/specs/", f) or m.group("kind"):
                functions.add(snake(name).replace("-", "_"))
    known = (functions | STD) - SMALL
    spoken = {f: spoken_in(f, text) for f, text in texts.items()}
    lent = set()
    for text in texts.values():
        for m in re.finditer(r"(?m)^(?:ghost )?use (\w+)[^{\n;]*?(?:\.\{([^}]*)\})?;?$", text):
            if m.group(1) != "Rattle" or m.group(0).split("use ", 1)[1].startswith("Rattle.std."):
                lent |= set(TOKEN.findall(m.group(2) or ""))
    new, left, taken = dict(HAND), [], set(own) | set(HAND.values())
    # Definitions first: a lemma that would have the name of one is told apart.
    for name in sorted(own, key=lambda n: (not is_camel(n), n)):
        if name in lent or name in HAND:
            continue
        if name in generated:
            if is_camel(name) or "-" in name:
                left.append((name, "Rattle makes it too"))
            continue
        to = snake(name) if is_camel(name) else name
        if "-" in to:
            to = to.replace("-", "_") if to.endswith("-spec") else joined(to, known)
        if to == name:
            continue
        if to in taken and "-" in name:
            to += "_lem"
        met = [f for f in texts if name in spoken[f] and to in spoken[f]]
        if to in taken or met:
            left.append((name, f"{to} stands already {' '.join(met)[:200]}"))
            continue
        taken.add(to)
        new[name] = to
    def turn(text):
        return TOKEN.sub(lambda m: new.get(m.group(0), m.group(0)), text)
    def quoted(text):
        return re.sub(r"`[^`\n]*`", lambda m: turn(m.group(0)), text)
    def lines(text, mark):
        out = []
        for line in text.split("\n"):
            if line.lstrip().startswith(mark):
                out.append(quoted(line))
            else:
                out.append(turn(line))
        return "\n".join(out)
    for f in theory:
        write(f, lines(texts[f], "--"))
    for f in files("crates/*.rt"):
        write(f, lines(texts[f], "//"))
    for f in files("crates/*.edit"):
        out = []
        for line in read(f).split("\n"):
            out.append(turn(line) if re.match(r"(old|new):", line) else quoted(line))
        write(f, "\n".join(out))
    for f in files("*.md"):
        write(f, quoted(read(f)))
    for name in sorted(new):
        print(f"{name} {new[name]}")
    for name, why in left:
        print(f"left: {name}: {why}", file=sys.stderr)


def write(path, text):
    if read(path) != text:
        with open(path, "w", encoding="utf-8") as f:
            f.write(text)


main()
