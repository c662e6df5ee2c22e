#!/usr/bin/env python3
"""The filters `read` and `write`: drawings to their images and back, byte for byte; what they refuse, with exit status and both streams.

    tests/filters.py                          the product's filters
    tests/filters.py --product PROGRAM ...    another program in the launcher's place; 'read' or 'write' is its last word

Its last line is 'N passed, M failed'.
"""
import argparse
import subprocess
import time

import counted
import programs
from shapes import ROOT, make

record, image, changed, drawing = make.record, make.image, make.changed, make.drawing
# how long a text `read` takes, and how many seconds a run may take that has a limit
MOST, SECONDS = 1_048_576, 2
T_TEXT = b"INPUT(n0)\nOUTPUT(n2)\nn1 = NOT(n0)\nn2 = OR(n0, n1)\n"
ALL_KINDS = image([record(make.INPUT), record(make.BUFFER, 0), record(make.NOT, 0)]
                  + [record(kind, *range(pins)) for kind in range(make.AND, make.XNOR + 1) for pins in (2, 3, 4)]
                  + [record(make.TIE0), record(make.TIE1)], range(23))
LARGEST = image([record(make.INPUT)] * 32 + [record(make.XNOR, i - 1, i - 2, i - 3, i - 4) for i in range(32, 4096)], range(4032, 4096))
TIES = image([record(make.INPUT)] + [record(make.TIE0), record(make.TIE1)] * 2047 + [record(make.TIE0)], range(4032, 4096))
# a text of the form that is as long as may be: 65,537 inputs are 906,408 bytes, and 142,168 bytes of outputs follow
LONGEST_TEXT = b"".join(b"INPUT(n%d)\n" % i for i in range(65_537)) + b"OUTPUT(n0)\n" * 12_923 + b"OUTPUT(n65535)\n"

# a board's name, its drawing and its image
PAIRS = [(name, (ROOT / f"boards/{name}.txt").read_bytes(), (ROOT / f"boards/{name}.img").read_bytes()) for name in ("S", "T", "H", "rails", "hall")] + [
    ("T by hand", T_TEXT, make.T),
    ("ties by hand", b"INPUT(n0)\nOUTPUT(n1)\nOUTPUT(n3)\nn1 = TIE0()\nn2 = TIE1()\nn3 = NAND(n2, n0, n1)\n",
     image([record(make.INPUT), record(make.TIE0), record(make.TIE1), record(make.NAND, 2, 0, 1)], [1, 3])),
    ("4,095 ties", drawing(TIES), TIES),
    ("every kind and pin count", drawing(ALL_KINDS), ALL_KINDS),
    ("an input that is the output", b"INPUT(n0)\nOUTPUT(n0)\n", image([record(make.INPUT)], [0])),
]

# what a text is, the text, and the line that refuses it
TEXTS = [
    ("the empty text", b"", "refused 2"),
    ("no word of the form", b"input(n0)\n", "refused 13 at 0"),
    ("no last line feed", T_TEXT[:-1], "refused 13 at 49"),
    ("a carriage return", T_TEXT.replace(b"\n", b"\r\n"), "refused 13 at 9"),
    ("an image", make.T, "refused 13 at 0"),
    ("no output", b"INPUT(n0)\n", "refused 2"),
    ("a pin that names its own line", T_TEXT.replace(b"n0, n1", b"n0, n2"), "refused 4 at 2.3"),
    ("an output that is not there", T_TEXT.replace(b"OUTPUT(n2)", b"OUTPUT(n3)"), "refused 5 at 0"),
    ("4,097 lines", drawing(LARGEST) + b"n4096 = NOT(n0)\n", "refused 2"),
    ("4,097 lines, the last a tie", drawing(TIES) + b"n4096 = TIE1()\n", "refused 2"),
    ("a tie with a pin", b"INPUT(n0)\nOUTPUT(n1)\nn1 = TIE1(n0)\n", "refused 13 at 31"),
    ("a tie with a space in its brackets", b"INPUT(n0)\nOUTPUT(n1)\nn1 = TIE0( )\n", "refused 13 at 31"),
    ("a tie without brackets", b"INPUT(n0)\nOUTPUT(n1)\nn1 = TIE0\n", "refused 13 at 30"),
    ("TIE2", b"INPUT(n0)\nOUTPUT(n1)\nn1 = TIE2()\n", "refused 13 at 29"),
    ("a tie without its line feed", b"INPUT(n0)\nOUTPUT(n1)\nn1 = TIE0()", "refused 13 at 32"),
    ("empty brackets of an and", b"INPUT(n0)\nOUTPUT(n1)\nn1 = AND()\n", "refused 13 at 30"),
    ("a tie at line 0", b"OUTPUT(n0)\nn0 = TIE1()\n", "refused 4 at 0.0"),
    ("a gate at line 0", b"OUTPUT(n0)\nn0 = AND(n0)\n", "refused 4 at 0.0"),
    ("a 33rd input", b"".join(b"INPUT(n%d)\n" % i for i in range(33)) + b"OUTPUT(n0)\n", "refused 4 at 32.0"),
    ("the longest text", LONGEST_TEXT, "refused 2"),
    ("the longest text without its last line feed", LONGEST_TEXT[:-1], "refused 13 at 1048575"),
    ("the longest text and a byte more", LONGEST_TEXT + b"\n", "? larger than 1048576 bytes"),
    ("three megabytes", LONGEST_TEXT * 3, "? larger than 1048576 bytes"),
]

# what an image is, the image, and the line that refuses it
IMAGES = [
    ("the empty image", b"", "refused 1"),
    ("a drawing", T_TEXT, "refused 1"),
    ("no line", image([], [0]), "refused 2"),
    ("a trailer alone", make.T[-12:], "refused 3"),
    ("4 at 2.3", changed(make.T, 24, b"\x02\x00"), "refused 4 at 2.3"),
    ("5 at 0", changed(make.T, 30, b"\x03\x00"), "refused 5 at 0"),
    ("a tie at line 0", image([record(make.TIE0)], [0]), "refused 4 at 0.0"),
    ("a tie with a pin", image([record(make.INPUT), record(make.TIE1, 0)], [1]), "refused 4 at 1.1"),
    ("an input after a tie", image([record(make.INPUT), record(make.TIE1), record(make.INPUT)], [1]), "refused 4 at 2.0"),
    ("kind 11", image([record(make.INPUT), record(11)], [1]), "refused 4 at 1.0"),
    ("4,097 lines", image([record(make.INPUT)] + [record(make.NOT, 0)] * 4096, [0]), "refused 2"),
    ("a 33rd input", image([record(make.INPUT)] * 33, [0]), "refused 4 at 32.0"),
    ("41,356 bytes that end in a good image", bytes(41_356 - 44) + make.T, "refused 3"),
    ("41,357 bytes", bytes(257) + LARGEST, "refused 3"),
    ("41,357 bytes that end in a good image", bytes(41_357 - 44) + make.T, "refused 3"),
    ("41,357 bytes that end in bad counts", bytes(41_345) + image([], [0])[-12:], "refused 2"),
    ("41,357 bytes without a mark", bytes(41_357), "refused 1"),
    ("a megabyte that ends in a good image", bytes(1_000_000) + make.T, "refused 3"),
    ("a megabyte of nothing", bytes(1_000_000), "refused 1"),
    ("a megabyte that ends in bad counts", bytes(1_000_000) + image([], [0])[-12:], "refused 2"),
]


class Filters:
    """The two filters of a program."""

    def __init__(self, program):
        """Those of the launcher, or of another program."""
        self.program = program

    def run(self, name, data):
        """A filter's exit status, output and words on an input, and its seconds."""
        began = time.perf_counter()
        ended = subprocess.run([*self.program, name], input=data, capture_output=True, timeout=60)
        return (ended.returncode, ended.stdout, ended.stderr), time.perf_counter() - began

    def gives(self, case, name, data, made):
        """Checks that a filter gives this and says nothing, and tells how long it took."""
        ended, seconds = self.run(name, data)
        counted.count(f"{name}, {case}", ended == (0, made, b""), ended)
        return seconds

    def refuses(self, case, name, data, line):
        """Checks that a filter gives nothing and says this line, with status 1, and tells how long it took."""
        ended, seconds = self.run(name, data)
        counted.count(f"{name}, {case}", ended == (1, b"", line.encode() + b"\n"), (ended[0], ended[1][:80], ended[2][:80]))
        return seconds


def there_and_back(filters):
    """Each drawing gives its image and each image its drawing; a note is not drawn."""
    for name, text, img in PAIRS:
        filters.gives(name, "read", text, img)
        filters.gives(name, "write", img, text)
    filters.gives("T with a note that holds an image", "write", make.H + make.T, T_TEXT)
    filters.gives("the longest image", "write", bytes(256) + LARGEST, drawing(LARGEST))


def refusals(filters):
    """What each filter turns away."""
    for name, text, line in TEXTS:
        filters.refuses(name, "read", text, line)
    for name, img, line in IMAGES:
        filters.refuses(name, "write", img, line)


def in_time(filters):
    """The largest board there and back, and a megabyte that is no drawing, each within its seconds."""
    seconds = {
        "reading the largest board": filters.gives("the largest board", "read", drawing(LARGEST), LARGEST),
        "writing the largest board": filters.gives("the largest board", "write", LARGEST, drawing(LARGEST)),
        "turning a megabyte away": filters.refuses("a megabyte of garbage", "read", b"\xff" * MOST, "refused 13 at 0"),
    }
    for name, took in seconds.items():
        print(f"{name}: {took:.2f} s")
        counted.count(name, took < SECONDS, f"{took:.2f} s")


def main():
    """Everything, through the filters of the product or of another program."""
    words = argparse.ArgumentParser(description=__doc__, formatter_class=argparse.RawDescriptionHelpFormatter)
    words.add_argument("--product", nargs="+", default=[programs.LAUNCHER], help="another program to run")
    product = words.parse_args().product
    if product[0] == programs.LAUNCHER:
        programs.build("read")
        programs.build("write")
    counted.count("the longest text is as long as may be", len(LONGEST_TEXT) == MOST, len(LONGEST_TEXT))
    counted.count("the longest image is as long as may be", len(bytes(256) + LARGEST) == 41_356, len(LARGEST))
    filters = Filters(product)
    there_and_back(filters)
    refusals(filters)
    in_time(filters)
    counted.end()


if __name__ == "__main__":
    main()
