"""Document 01's node units as a plain model: written from the document alone, for comparing.

A node is a tuple: ("Sum", count, nonterminal), ("Product", action, left, right) with right None where there is none,
("NullingLeaf", symbol) or ("Evaluated", symbol). A store is a list of units.
"""

USABLE = 32768
FILLER = 0xFFFF
ALL_ONES = 0xFFFFFFFF


def halves(value):
    return value & 0xFFFF, value >> 16


def unfit(p, node):
    """A factor lies strictly before the node."""
    if node[0] == "Sum":
        return node[1] >= 2**28
    if node[0] == "Product":
        _, action, left, right = node
        return action >= 2**29 or left >= p or right is not None and (right >= p or right == ALL_ONES)
    return False


def rows(p, node):
    """The rows of the table that a node which is not unfit at p fits, in the table's order."""
    if node[0] == "Sum":
        _, count, nonterminal = node
        if count < 32 and nonterminal < 256:
            yield [0x0000 + count * 256 + nonterminal]
        low, high = halves(count)
        yield [0xE000 + high, low, *halves(nonterminal)]
    elif node[0] == "Product":
        _, action, left, right = node
        if right is None:
            if p - left < 32 and action < 256:
                yield [0x2000 + (p - left) * 256 + action]
            if p - left < 8192 and action < 65536:
                yield [0x4000 + (p - left), action]
        elif p - right < 32 and p - left < 256 and action < 65536:
            yield [0x6000 + (p - right) * 256 + (p - left), action]
        low, high = halves(action)
        yield [0xC000 + high, low, *halves(left), *halves(ALL_ONES if right is None else right)]
    else:
        short, wide = {"Evaluated": (0x8000, 0xA000), "NullingLeaf": (0x9000, 0xA001)}[node[0]]
        if node[1] < 4096:
            yield [short + node[1]]
        yield [wide, 0, *halves(node[1])]


def units(p, node):
    """The units of a node at p, or None where it is unfit."""
    return None if unfit(p, node) else next(rows(p, node))


def write(store, p, node):
    """(number, the position behind, or the place of a refusal); changes the store where the number is 0."""
    here = units(p, node)
    if here is None:
        return 10, p
    if p + len(here) > min(len(store), USABLE):
        return 11, p
    store[p:p + len(here)] = here
    return 0, p + len(here)


def candidates(store, end, p):
    """Every node that some row of the table could have written with the head unit at p, looking at no condition but the row's layout."""
    head = store[p]

    def unit(i):
        return store[p + i] if p + i < end else 0

    def value(i):
        return unit(i) | unit(i + 1) << 16

    tag, rest = head & 0xE000, head & 0x1FFF
    if tag == 0x0000:
        yield "Sum", rest >> 8, rest & 255
    elif tag == 0x2000:
        yield "Product", rest & 255, p - (rest >> 8), None
    elif tag == 0x4000:
        yield "Product", unit(1), p - rest, None
    elif tag == 0x6000:
        yield "Product", unit(1), p - (rest & 255), p - (rest >> 8)
    elif tag == 0x8000:
        yield ("NullingLeaf" if rest & 0x1000 else "Evaluated"), rest & 0x0FFF
    elif tag == 0xA000:
        yield "Evaluated", value(2)
        yield "NullingLeaf", value(2)
    elif tag == 0xC000:
        yield "Product", rest << 16 | unit(1), value(2), None if value(4) == ALL_ONES else value(4)
    else:
        yield "Sum", rest << 16 | unit(1), value(2)


def form(head):
    """How many units the row of a head has; None where no row has it."""
    if 0xA002 <= head < 0xC000 or head >= 0xF000:
        return None
    return {0x0000: 1, 0x2000: 1, 0x4000: 2, 0x6000: 2, 0x8000: 1, 0xA000: 4, 0xC000: 6, 0xE000: 4}[head & 0xE000]


def faults(store, end, p):
    """The unit of each fault that units which are no node have, kind by kind."""
    head = store[p]
    width = form(head)
    if width is None:
        yield p  # no form has this head
        return
    if p + width > end:
        yield p  # cut off
    node = list(candidates(store, end, p))[head == 0xA001]
    if node[0] == "Product" and not all(0 <= factor < p for factor in node[2:] if factor is not None):
        yield p  # a distance that is 0 or above the position, a factor that does not lie before it
    elif len(units(p, node)) < width:
        yield p  # a longer form where a shorter was due
    if head in (0xA000, 0xA001) and p + 1 < end and store[p + 1] != 0:
        yield p + 1  # not zero where zero is due


def read(store, p):
    """(0, node, the position behind), (0, None, None) at the end, or (12, None, the unit of the lowest fault)."""
    end = min(len(store), USABLE)
    while p < end and store[p] == FILLER:
        p += 1
    if p >= end:
        return 0, None, None
    for node in candidates(store, end, p):
        if any(isinstance(field, int) and field < 0 for field in node):
            continue
        here = units(p, node)
        if here is not None and p + len(here) <= end and store[p:p + len(here)] == here:
            return 0, node, p + len(here)
    return 12, None, min(faults(store, end, p))


def walk(store, p):
    """(0 or 12, the number of nodes read, the position behind the last one, the unit of the 12 or None)."""
    count = 0
    while True:
        number, node, behind = read(store, p)
        if node is None:
            return number, count, p, behind
        count, p = count + 1, behind
