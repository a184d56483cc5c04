#!/usr/bin/env python3
"""places: the places in crates/*/src that docs/DESIGN-PASS.md counts, point by point.

  tools/places.py [-v] [DIR]     DIR has crates/ (default: here). With -v each place is listed.

A place is a line or a function that has the shape that its point speaks of. What is found is a place to look at, and no verdict: the page says which stay, and why.
"""
import collections, glob, os, re, sys

TYPES = r"u8|u16|u32|u64|usize|bool"


def functions(text):
    """Each function: name, line, parameters, result, clauses, body."""
    for m in re.finditer(r"^([ \t]*)(?:pub(?:\([a-z]+\))? )?(?:const )?(?:extern \"C\" )?fn (\w+)", text, re.M):
        at = text.index("(", m.end())
        depth, end = 0, at
        while True:
            depth += {"(": 1, ")": -1}.get(text[end], 0)
            if depth == 0:
                break
            end += 1
        close = text.find("\n" + m.group(1) + "}", end)
        block = text[end + 1:close]
        cut = re.search(r"(^|\n)[ \t]*\{\n|\{\n", block)
        opens = [b.start() for b in re.finditer(r"\{\s*\n", block)]
        bare = re.search(r"\n" + m.group(1) + r"\{\n", block)
        start = bare.end() if bare else (opens[0] + 1 if opens else 0)
        yield (m.group(2), text.count("\n", 0, m.start()) + 1, text[at + 1:end], block[:start], block[start:])


def shape(body):
    """A body with its names numbered in the order in which they come, and all numbers and types of numbers alike."""
    known, out = {}, []
    for word in re.findall(r"[A-Za-z_]\w*|\d[\w]*|[^\s\w]", re.sub(r"//.*", "", body)):
        if re.fullmatch(TYPES, word):
            out.append("T")
        elif word[0].isdigit():
            out.append("0")
        elif word in ("let", "mut", "if", "else", "for", "in", "while", "loop", "return", "match", "break", "continue", "true", "false", "as", "self", "ref"):
            out.append(word)
        elif word[0].isalpha() or word[0] == "_":
            out.append(known.setdefault(word, f"n{len(known)}"))
        else:
            out.append(word)
    return " ".join(out)


def loops(text):
    """Each `while`: line, condition, body."""
    for m in re.finditer(r"^([ \t]*)(?:'\w+: )?while (.+) \{$", text, re.M):
        close = text.index("\n" + m.group(1) + "}", m.end())
        yield text.count("\n", 0, m.start()) + 1, m.group(2), text[m.end():close]


def main():
    verbose = "-v" in sys.argv
    folder = next((a for a in sys.argv[1:] if a != "-v"), ".")
    files = sorted(glob.glob(os.path.join(folder, "crates/*/src/**/*.rt"), recursive=True))
    found = collections.OrderedDict()

    def add(key, path, line, text):
        found.setdefault(key, []).append(f"{os.path.relpath(path, folder)}:{line}: {text}")

    keys = [
        "1 enums", "1 refusals and kinds as numbers", "1 a flag or a number beside a value",
        "2 functions of one shape", "3 loops that count by hand", "3 other `while` and `loop`",
        "4 conversions by hand", "4 least, greatest, and, or by hand", "5 rules and their number", "5 all five slices of a parse", "5 the three arrays of a table",
        "6 arrays side by side", "6 copied or cleared word by word", "7 a flag that switches a step", "7 a number that switches a step",
    ]
    for key in keys:
        found[key] = []
    shapes = collections.defaultdict(list)
    for path in files:
        text = open(path, encoding="utf-8").read()
        crate = path.split("crates/")[1].split("/")[0]
        for number, line in enumerate(text.split("\n"), 1):
            if re.match(r"\s*(pub )?enum ", line):
                add("1 enums", path, number, line.strip())
            if re.match(r"\s*(pub )?const (ITEMS_FULL|QUEUE_FULL|SETS_FULL|STORE_FULL|NO_NODE|TOO_MANY_TREES|NO_SUCH_TREE|TOO_SHORT|SUM|PRODUCT|NULLING_LEAF|EVALUATED|FAULT|NUMBER|MANY)\b", line):
                add("1 refusals and kinds as numbers", path, number, line.strip())
            if re.match(r"\s*(pub )?(stopped|number): u32,|\s*number: &mut u32,|\s*[\w]*[wW]hat == \d|\s*\} else if what == \d|\s*if what == \d|\s*if kind == \w+ \{", line):
                add("1 a flag or a number beside a value", path, number, line.strip())
        for name, line, params, head, body in functions(text):
            if crate != "host_c" and len([b for b in body.split("\n") if b.strip()]) >= 3:
                shapes[shape(body)].append((path, line, name))
            code = [b.strip() for b in re.sub(r"//.*", "", body).strip().split("\n") if b.strip()]
            if len(code) == 1 and re.fullmatch(r"\(?\w+( [%/] [\w]+)?\)?( as \w+)( % \d+)?|\(\w+ [%/] \w+\) as \w+|(u8|u16|u32|u64|usize)::from\(\w+\)", code[0]):
                add("4 conversions by hand", path, line, f"fn {name}: {code[0]}")
            joined = " ".join(code)
            if re.fullmatch(r"if (\w+) < (\w+) \{ return (\1|\2); \} (\1|\2)|if (\w+) < (\w+) \{ (\5|\6) \} else \{ (\5|\6) \}|if len < USABLE_UNITS \{ len \} else \{ USABLE_UNITS \}|if a \{ return b; \} false|if \w+ \{ return 1; \} 0|if \w+ \{ 1 \} else \{ 0 \}|if .* \{ .* \} else \{ (true|false) \}", joined):
                add("4 least, greatest, and, or by hand", path, line, f"fn {name}")
            if re.search(r"rules: &(mut )?Rules", params) and re.search(r"\b(count|n): usize|sizes: Sizes", params):
                add("5 rules and their number", path, line, f"fn {name}")
            if crate not in ("host", "host_c") and all(re.search(rf"\b{x}: &", params) for x in ("items", "starts", "rows", "queue", "store")):
                add("5 all five slices of a parse", path, line, f"fn {name}")
            if all(re.search(rf"\b{x}: &", params) for x in ("kinds", "counts", "lows")):
                add("5 the three arrays of a table", path, line, f"fn {name}")
            if re.search(r"let mut kinds = \[.*let mut counts = \[", joined):
                add("6 arrays side by side", path, line, f"fn {name}")
            if re.search(r"\b(all|more|before): bool", params) and re.search(r"\bif (all|more)\b|grow_once\(", body):
                add("7 a flag that switches a step", path, line, f"fn {name}")
            if re.search(r"if what == \d", body):
                add("7 a number that switches a step", path, line, f"fn {name}")
            for m in re.finditer(r"for (\w+) in [^{]*\{\s*(\w+)\[[^\]]*\b\1\b[^\]]*\] = (0|FILLER|true|false|\w+\[[^\]]*\1[^\]]*\]|\(\w+ & \w+\));\s*\}", body):
                add("6 copied or cleared word by word", path, line, f"fn {name}: {m.group(0).split(chr(10))[0]}")
        for line, test, body in loops(text):
            counted = [v for v in set(re.findall(r"\b(\w+)\b", test)) if re.search(rf"\b{v} (\+|-)= (1|BLOCK)\b", body)]
            add("3 loops that count by hand" if counted else "3 other `while` and `loop`", path, line, f"while {test}")
        for m in re.finditer(r"^\s*loop \{", text, re.M):
            add("3 other `while` and `loop`", path, text.count("\n", 0, m.start()) + 1, "loop")
    for group in shapes.values():
        if len(group) > 1:
            for path, line, name in group:
                add("2 functions of one shape", path, line, f"fn {name} ~ " + ", ".join(n for p, l, n in group if (p, l) != (path, line)))
    for key, rows in found.items():
        print(f"{len(rows):5}  {key}")
        if verbose:
            for row in rows:
                print("         " + row)


main()
