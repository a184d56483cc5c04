"""Rows of what was got beside what is wanted, and what came of them."""

failures, count = [], 0


def expect(what, got, wanted):
    global count
    count += 1
    if got != wanted:
        failures.append(f"{what}: wanted {wanted}, got {got}")


def passed():
    """Prints what failed, and how many were expected."""
    for failure in failures:
        print(failure)
    print(f"{count} numbers, {len(failures)} failed")
    return count > 0 and not failures
