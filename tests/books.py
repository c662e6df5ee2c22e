#!/usr/bin/env python3
"""Whole books against the obvious way: both books of boards of few inputs and of every size, entry by entry.

    tests/books.py                               boards of up to 10 inputs and of up to 1,500 lines, as the gate runs it
    tests/books.py --only '20 inputs: adder'     the boards of tests/families.py whose name has this text, however long the obvious way takes
    tests/books.py --product PROGRAM ...         another program in the product's place

Its last line is 'N passed, M failed', a check for each entry.
"""
import argparse
import subprocess

import counted
import families
import programs
from shapes import make

OBVIOUS = str(programs.ROOT / "tests/obvious/target/release/obvious")
# boards of fewer patterns than a word has lanes, of fewer than a block has, of one block and of two, and one of many lines; and the same with ties
BOARDS = {
    **{name: getattr(make, name) for name in ("S", "T", "H", "RAILS")},
    **{f"tied, {inputs} inputs, {lines} lines": families.tied(inputs, lines).image()
       for inputs, lines in ((4, 8), (4, 12), (5, 40), (6, 64), (7, 100), (9, 150), (10, 200), (4, 1500))},
    **{f"random, {inputs} inputs, {lines} lines": families.scattered(inputs, lines).image()
       for inputs, lines in ((4, 12), (5, 40), (6, 64), (7, 100), (9, 150), (10, 200), (10, 512), (4, 1500))},
    **{f"8 inputs: {name}": board.image() for name, board in families.GROUPS["8 inputs"].items()},
}


def books(program, image):
    """The answers that a program gives for a board's two books, their counts and their entries."""
    script = f"load {image.hex()}\nbook\nentries\npin book\npin entries\n"
    return subprocess.run(program, input=script, stdout=subprocess.PIPE, text=True, check=True).stdout.splitlines()


def named(text):
    """The timed boards whose name has a text."""
    every = {f"{group}: {name}": board for part in (families.GROUPS, families.GROWTH) for group, boards in part.items() for name, board in boards.items()}
    return {name: board.image() for name, board in every.items() if text in name}


def main():
    """Compares the books, and ends with the count."""
    parser = argparse.ArgumentParser(description=__doc__.splitlines()[0])
    parser.add_argument("--only", metavar="TEXT", help="the timed boards whose name has this text")
    parser.add_argument("--product", nargs=argparse.REMAINDER, metavar="PROGRAM", help="another program in the product's place")
    asked = parser.parse_args()
    if not asked.product:
        programs.build("bench")
    programs.made(["cargo", "build", "--release", *programs.CARGO, "--manifest-path", str(programs.ROOT / "tests/obvious/Cargo.toml")])
    for name, image in (named(asked.only) if asked.only else BOARDS).items():
        ours, obvious = books(asked.product or [programs.LAUNCHER, "bench"], image), books([OBVIOUS], image)
        counted.count(f"{name}: counts", ours[:2] + ours[3:4] == obvious[:2] + obvious[3:4], f"{ours[:2] + ours[3:4]}, the obvious way {obvious[:2] + obvious[3:4]}")
        for place in (2, 4):
            counted.count(f"{name}: {ours[place].split()[0]}", ours[place] == obvious[place], "an entry differs", len(ours[place].split()) - 1)
    counted.end()


if __name__ == "__main__":
    main()
