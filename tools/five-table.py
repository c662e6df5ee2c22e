#!/usr/bin/env python3
"""The table of the five-value gate rule, 1,875 entries, worked out by trying every filling.

    tools/five-table.py            writes the table into crates/five/src/table.rt, between its two marks
    tools/five-table.py --check    says whether the table there is this one
    tools/five-table.py --print    prints it

The entries stand in the order that `slot` of crates/five/specs/Table.antt gives: by section, then by the first pin's value, and so on.
A value is written 0, 1, 2 (x), 3 (D: good 1, faulty 0) or 4 (D-bar: good 0, faulty 1).
"""
import itertools
import pathlib
import sys

SOURCE = pathlib.Path(__file__).resolve().parent.parent / "crates" / "five" / "src" / "table.rt"
BEGIN, END = "// tools/five-table.py: the table begins", "// tools/five-table.py: the table ends"
X = 2
HALVES = {0: (0, 0), 1: (1, 1), 3: (1, 0), 4: (0, 1)}
VALUE = {halves: value for value, halves in HALVES.items()}
SIGNS = ("0", "1", "x", "D", "D-bar")
SECTIONS = (
    ("and", lambda bits: all(bits)),
    ("or", lambda bits: any(bits)),
    ("exclusive-or", lambda bits: sum(bits) % 2 == 1),
)


def settled(gate, pins):
    """The value of a gate none of whose pins is x: on the good halves and on the faulty halves."""
    goods, faulties = zip(*(HALVES[pin] for pin in pins))
    return VALUE[int(gate(goods)), int(gate(faulties))]


def entry(gate, pins):
    """The one value that every filling of the x pins gives, each pin on its own, or x."""
    choices = [sorted(HALVES) if pin == X else [pin] for pin in pins]
    values = {settled(gate, filling) for filling in itertools.product(*choices)}
    return values.pop() if len(values) == 1 else X


def lines():
    """The entries in their order, each with its section and its pins."""
    for section, gate in SECTIONS:
        for pins in itertools.product(range(5), repeat=4):
            yield "    %d, // %s %s" % (entry(gate, pins), section, " ".join(SIGNS[pin] for pin in pins))


def written():
    entries = list(lines())
    return "\n".join([BEGIN, "static TABLE: [u8; %d] = [" % len(entries)] + entries + ["];", END])


def main(words):
    if words == ["--print"]:
        print(written())
        return 0
    if words not in ([], ["--check"]):
        print(__doc__, file=sys.stderr)
        return 2
    old = SOURCE.read_text()
    before, rest = old.split(BEGIN)
    after = rest.split(END)[1]
    new = before + written() + after
    if words == ["--check"]:
        print("the table is right" if new == old else "the table is not the one that the rule gives")
        return 0 if new == old else 1
    SOURCE.write_text(new)
    return 0


sys.exit(main(sys.argv[1:]))
