"""Imported where an assert is relied on: `python3 -O` and PYTHONOPTIMIZE leave asserts out, and a comparison without them could pass."""

if not __debug__:
    raise SystemExit("asserts are left out here: run without -O and without PYTHONOPTIMIZE")
