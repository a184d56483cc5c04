"""What the comparisons in rounds of random cases share: what was met, the first difference, and how a run ends."""

import random
import sys
from collections import Counter

met = Counter()
in_hand = []  # the case that is being looked at


class Differs(Exception):
    pass


def same(what, got, wanted):
    met["compared"] += 1
    if got != wanted:
        raise Differs(f"{what}\n  got    {got}\n  wanted {wanted}" + (f"\n  in {in_hand}" if in_hand else ""))


def run(parts, least, first=()):
    """SEED and ROUNDS of the command line: what comes first, and then ROUNDS times the parts, from SEED. Prints what was met. The exit status is 1 at the
    first difference, and where something was met less often than `least` says for a round."""
    seed, rounds = int(sys.argv[1]), int(sys.argv[2])
    rng = random.Random(seed)
    try:
        for part in first:
            part()
        for _ in range(rounds):
            for part in parts:
                in_hand.clear()
                part(rng)
    except Differs as differs:
        print(f"seed {seed}: {differs}")
        return 1
    for name in sorted(met):
        print(f"{name}: {met[name]}")
    rare = [name for name, times in least.items() if met[name] < times * rounds]
    if rounds < 1 or rare:
        print("met too rarely: " + ", ".join(rare))
        return 1
    print(f"seed {seed}, {rounds} rounds: no difference")
    return 0
