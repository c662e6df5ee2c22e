"""Checks that are counted, and the closing line 'N passed, M failed' that says how many there were."""
import sys

counts = {True: 0, False: 0}


def count(name, right, why="", checks=1):
    """So many checks, passed or failed together."""
    counts[bool(right)] += checks
    if not right:
        print(f"FAILED: {name}: {why}")


def end():
    """Writes the closing line, and ends with status 1 where a check failed."""
    print(f"{counts[True]} passed, {counts[False]} failed")
    sys.exit(1 if counts[False] else 0)
