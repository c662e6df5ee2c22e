#!/usr/bin/env python3
"""The books as text: the program `book` against the independent program on the same images, whole; and what the papers say of some.

    tests/book_texts.py                          the product's program
    tests/book_texts.py --product PROGRAM ...    another program in its place

Its last line is 'N passed, M failed'.
"""
import argparse
import random
import subprocess

import counted
import programs
from shapes import make

record, image = make.record, make.image


def random_board(seed, inputs, lines, outputs, fewest_pins=1):
    """A board with gates of every kind and pin count, or of every kind that has so many pins, on random lower lines; with ties where 0 is enough."""
    rng = random.Random(seed)
    records = [record(make.INPUT) for _ in range(inputs)]
    for i in range(inputs, lines):
        kind = rng.randrange(1 if fewest_pins < 2 else 3, 9 if fewest_pins else 11)
        pins = 0 if kind > 8 else 1 if kind < 3 else rng.randrange(max(2, fewest_pins), 5)
        records.append(record(kind, *(rng.randrange(max(0, i - 24), i) for _ in range(pins))))
    return image(records, sorted(rng.sample(range(lines), outputs)))


def run(command, data):
    """What a program writes on an input."""
    return subprocess.run(command, input=data, stdout=subprocess.PIPE, check=True, timeout=600).stdout


CASES = {
    "S": make.S,
    "T": make.T,
    "H": make.H,
    "rails": make.RAILS,
    "ties among gates": random_board(7, 6, 80, 9, 0),
    "ties among 4,096 lines": random_board(70, 2, 4096, 64, 0),
    "ties alone": image([record(make.INPUT), record(make.TIE0), record(make.TIE1)], [0, 1, 2]),
    "a tie that reaches no output": image([record(make.INPUT), record(make.TIE1)], [0]),
    "a tie on two pins": image([record(make.INPUT), record(make.TIE1), record(make.AND, 1, 0, 1)], [2]),
    "10 inputs, 100 lines": random_board(12, 10, 100, 5),
    "513 lines": random_board(512, 5, 513, 64),
    "4,096 lines": random_board(4096, 3, 4096, 64),
    "every gate on four pins": random_board(4, 4, 60, 3, 4),
    "an input that is an output": image([record(make.INPUT)], [0]),
    "inputs alone": image([record(make.INPUT)] * 5, [1, 3]),
    "a line on two pins": image([record(make.INPUT), record(make.XOR, 0, 0)], [1]),
    "a gate that reaches no output": image([record(make.INPUT), record(make.AND, 0, 0), record(make.NOT, 0)], [2]),
    "an exclusive-or of three that is an or": image([record(make.INPUT)] * 2 + [record(make.AND, 0, 1), record(make.XOR, 0, 1, 2)], [3]),
    "the empty image": b"",
    "no line": image([], [0]),
    "a trailer alone": make.T[-12:],
    "4 at 2.3": make.changed(make.T, 24, b"\x02\x00"),
    "5 at 0": make.changed(make.T, 30, b"\x03\x00"),
    "a tie at line 0": image([record(make.TIE1)], [0]),
    "a gate at line 0": image([record(make.AND, 0, 0)], [0]),
    "a tie with a pin": image([record(make.INPUT), record(make.TIE0, 0)], [1]),
    "an input after a tie": image([record(make.INPUT), record(make.TIE0), record(make.INPUT)], [1]),
    "kind 11": image([record(make.INPUT), record(11)], [1]),
    "4,097 lines": image([record(make.INPUT)] + [record(make.NOT, 0)] * 4096, [0]),
    "a 33rd input": image([record(make.INPUT)] * 33, [0]),
    "41,356 bytes": bytes(256) + random_board(32, 2, 4096, 64, 4),
    "41,356 bytes that end in a good image": bytes(41_356 - 44) + make.T,
    "41,357 bytes": bytes(257) + random_board(32, 2, 4096, 64, 4),
    "41,357 bytes that end in a good image": bytes(41_357 - 44) + make.T,
    "41,357 bytes that end in bad counts": bytes(41_345) + image([], [0])[-12:],
    "41,357 bytes without a mark": bytes(41_357),
    "a megabyte that ends in a good image": bytes(1_000_000) + make.T,
    "a megabyte of nothing": bytes(1_000_000),
    "a megabyte that ends in bad counts": bytes(1_000_000) + make.image([], [0])[-12:],
}

# whole texts written by hand from the papers
BY_HAND = {
    "T": b"board 3 lines 1 inputs 1 outputs\n0/0 none\n0/1 none\n1/0 0\n1/1 none\n2/0 0\n2/1 none\nfound 2 of 6\n"
         b"1.0/0 none\n1.0/1 0\n2.0/0 1\n2.0/1 none\n2.1/0 0\n2.1/1 none\npins found 3 of 6\n",
    "H": b"board 4 lines 2 inputs 2 outputs\n0/0 1\n0/1 0\n1/0 2\n1/1 0\n2/0 0\n2/1 1\n3/0 2\n3/1 0\nfound 8 of 8\n"
         b"2.0/0 1\n2.0/1 0\n3.0/0 2\n3.0/1 0\npins found 4 of 4\n",
    "rails": b"board 8 lines 2 inputs 3 outputs\n0/0 1\n0/1 0\n1/0 2\n1/1 0\n2/0 none\n2/1 0\n3/0 1\n3/1 none\n4/0 2\n4/1 3\n5/0 1\n5/1 0\n"
             b"6/0 2\n6/1 0\n7/0 1\n7/1 0\nfound 14 of 16\n4.0/0 3\n4.0/1 2\n5.0/0 1\n5.0/1 0\n5.1/0 1\n5.1/1 none\n6.0/0 2\n6.0/1 0\n"
             b"6.1/0 2\n6.1/1 3\n6.2/0 2\n6.2/1 none\n7.0/0 1\n7.0/1 0\n7.1/0 2\n7.1/1 0\n7.2/0 none\n7.2/1 0\npins found 15 of 18\n",
    "ties alone": b"board 3 lines 1 inputs 3 outputs\n0/0 1\n0/1 0\n1/0 none\n1/1 0\n2/0 0\n2/1 none\nfound 4 of 6\npins found 0 of 0\n",
    "a tie that reaches no output": b"board 2 lines 1 inputs 1 outputs\n0/0 1\n0/1 0\n1/0 none\n1/1 none\nfound 2 of 4\npins found 0 of 0\n",
    "a tie on two pins": b"board 3 lines 1 inputs 1 outputs\n0/0 1\n0/1 0\n1/0 1\n1/1 none\n2/0 1\n2/1 0\nfound 5 of 6\n"
                         b"2.0/0 1\n2.0/1 none\n2.1/0 1\n2.1/1 0\n2.2/0 1\n2.2/1 none\npins found 4 of 6\n",
    "a tie at line 0": b"refused 4 at 0.0\n",
    "a gate at line 0": b"refused 4 at 0.0\n",
    "a tie with a pin": b"refused 4 at 1.1\n",
    "an input after a tie": b"refused 4 at 2.0\n",
    "kind 11": b"refused 4 at 1.0\n",
    "an input that is an output": b"board 1 lines 1 inputs 1 outputs\n0/0 1\n0/1 0\nfound 2 of 2\npins found 0 of 0\n",
    "inputs alone": b"board 5 lines 5 inputs 2 outputs\n0/0 none\n0/1 none\n1/0 2\n1/1 0\n2/0 none\n2/1 none\n3/0 8\n3/1 0\n"
                    b"4/0 none\n4/1 none\nfound 4 of 10\npins found 0 of 0\n",
    "a line on two pins": b"board 2 lines 1 inputs 1 outputs\n0/0 none\n0/1 none\n1/0 none\n1/1 0\nfound 1 of 4\n"
                          b"1.0/0 1\n1.0/1 0\n1.1/0 1\n1.1/1 0\npins found 4 of 4\n",
    "an exclusive-or of three that is an or":
        b"board 4 lines 2 inputs 1 outputs\n0/0 1\n0/1 0\n1/0 2\n1/1 0\n2/0 3\n2/1 0\n3/0 1\n3/1 0\nfound 8 of 8\n"
        b"2.0/0 3\n2.0/1 2\n2.1/0 3\n2.1/1 1\n3.0/0 1\n3.0/1 0\n3.1/0 2\n3.1/1 0\n3.2/0 3\n3.2/1 0\npins found 10 of 10\n",
    "4 at 2.3": b"refused 4 at 2.3\n",
    "4,097 lines": b"refused 2\n",
    "a 33rd input": b"refused 4 at 32.0\n",
    "41,356 bytes that end in a good image": b"refused 3\n",
    "41,357 bytes": b"refused 3\n",
    "41,357 bytes that end in a good image": b"refused 3\n",
    "41,357 bytes that end in bad counts": b"refused 2\n",
    "41,357 bytes without a mark": b"refused 1\n",
}


def main():
    """Every image through both programs, and the texts by hand."""
    words = argparse.ArgumentParser(description=__doc__, formatter_class=argparse.RawDescriptionHelpFormatter)
    words.add_argument("--product", nargs="+", default=[programs.LAUNCHER, "book"], help="another program to hold against it")
    product = words.parse_args().product
    programs.build_oracle()
    if product[0] == programs.LAUNCHER:
        programs.build("book")
    for name, data in CASES.items():
        expected, written = run([programs.ORACLE, "book"], data), run(product, data)
        counted.count(name, written == expected and expected.endswith(b"\n"), f"expected {expected[-80:]!r}, found {written[-80:]!r}")
        if name in BY_HAND:
            counted.count(f"{name}, by hand", written == BY_HAND[name], f"found {written!r}")
        if name == "S":
            counted.count("S, line 4's first pin at 1", b"\n4.0/1 0\n" in written, f"found {written!r}")
    counted.end()


if __name__ == "__main__":
    main()
