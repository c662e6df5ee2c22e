#!/usr/bin/env python3
"""The papers' boundaries, through the console: images, drawings and the answers that the papers have for them, written by hand side by side.

    tests/boundaries.py                          the product's console
    tests/boundaries.py --long                   the searches among all patterns of 32 inputs too, which take a minute
    tests/boundaries.py --product PROGRAM ...    another program in its place

Its last line is 'N passed, M failed'.
"""
import argparse
import subprocess
import tempfile
from pathlib import Path

import counted
import programs
from shapes import make

record, image, changed = make.record, make.image, make.changed
INPUT, BUFFER, NOT, AND, NAND, OR, NOR = make.INPUT, make.BUFFER, make.NOT, make.AND, make.NAND, make.OR, make.NOR
XOR, XNOR, TIE0, TIE1, T, RAILS = make.XOR, make.XNOR, make.TIE0, make.TIE1, make.T, make.RAILS
NONE = 18446744073709551615
S_COUNTS, T_COUNTS, RAILS_COUNTS = "board 12 lines 4 inputs 1 outputs", "board 3 lines 1 inputs 1 outputs", "board 8 lines 2 inputs 3 outputs"


def chain(lines):
    """A board of one input and a chain of buffers behind it."""
    return [record(INPUT)] + [record(BUFFER, i) for i in range(lines - 1)]


# the largest board there is: 32 inputs, 4,064 buffers of input 0, and the last 64 lines as outputs
LARGEST = [record(INPUT)] * 32 + [record(BUFFER, 0)] * 4064
LARGEST_COUNTS = "board 4096 lines 32 inputs 64 outputs"


def behind_input(*records):
    """The image of an input, the output, with these records behind it."""
    return image([record(INPUT), *records], [0])


# document 02, W7: lines tied to a rail, kinds 9 and 10, which have no pins; a line 0 that is no input, whatever else is right or wrong with it
TIED_IMAGES = [
    ("the tie-breaker", RAILS, RAILS_COUNTS),
    ("kind 9", behind_input(record(TIE0)), "board 2 lines 1 inputs 1 outputs"),
    ("kind 10", behind_input(record(TIE1)), "board 2 lines 1 inputs 1 outputs"),
    ("a tie as the output", image([record(INPUT), record(TIE1)], [1]), "board 2 lines 1 inputs 1 outputs"),
    ("4,095 ties", behind_input(*[record(TIE1)] * 4095), "board 4096 lines 1 inputs 1 outputs"),
    ("4,096 ties", behind_input(*[record(TIE0)] * 4096), "refused 2"),
    ("a tie behind 32 inputs", image([record(INPUT)] * 32 + [record(TIE0)], [32]), "board 33 lines 32 inputs 1 outputs"),
    ("a tie behind 33 inputs", image([record(INPUT)] * 33 + [record(TIE0)], [33]), "refused 4 at 32.0"),
    ("an input after kind 9", behind_input(record(TIE0), record(INPUT)), "refused 4 at 2.0"),
    ("an input after kind 10", behind_input(record(TIE1), record(INPUT)), "refused 4 at 2.0"),
    ("an input after a tie and a gate", behind_input(record(TIE1), record(AND, 0, 1), record(INPUT)), "refused 4 at 3.0"),
    ("an input with a pin after a tie", behind_input(record(TIE1), record(INPUT, 0)), "refused 4 at 2.0"),
    ("a gate that reads a tie", behind_input(record(TIE1), record(NOT, 1)), "board 3 lines 1 inputs 1 outputs"),
    ("a gate that reads a tie above it", behind_input(record(AND, 0, 2), record(TIE1)), "refused 4 at 1.3"),
    ("kind 11", behind_input(record(11)), "refused 4 at 1.0"),
    ("kind 11 with two pins", behind_input(record(11, 0, 0)), "refused 4 at 1.0"),
    ("kind 12", behind_input(record(12)), "refused 4 at 1.0"),
    ("kind 128", behind_input(record(128)), "refused 4 at 1.0"),
    ("kind 255", behind_input(record(255)), "refused 4 at 1.0"),
    ("kind 11 behind a tie", behind_input(record(TIE0), record(11)), "refused 4 at 2.0"),
    # a count that is not 0, before a pin that is bad too
    ("kind 9 with a pin", behind_input(record(TIE0, 0)), "refused 4 at 1.1"),
    ("kind 10 with a pin", behind_input(record(TIE1, 0)), "refused 4 at 1.1"),
    ("kind 9 with a pin too high", behind_input(record(TIE0, 9)), "refused 4 at 1.1"),
    ("kind 10 with two pins", behind_input(record(TIE1, 0, 0)), "refused 4 at 1.1"),
    ("kind 9 with three pins", behind_input(record(TIE0, 0, 0, 0)), "refused 4 at 1.1"),
    ("kind 10 with four pins", behind_input(record(TIE1, 0, 0, 0, 0)), "refused 4 at 1.1"),
    ("kind 9 with 255 pins", behind_input(changed(record(TIE0), 1, b"\xff")), "refused 4 at 1.1"),
    ("kind 10 with 255 pins", behind_input(changed(record(TIE1), 1, b"\xff")), "refused 4 at 1.1"),
    # an unused pin that is not 0, and of two the first
    ("kind 9, field 2", behind_input(changed(record(TIE0), 2, b"\1")), "refused 4 at 1.2"),
    ("kind 9, field 3", behind_input(changed(record(TIE0), 4, b"\1")), "refused 4 at 1.3"),
    ("kind 9, field 4", behind_input(changed(record(TIE0), 6, b"\1")), "refused 4 at 1.4"),
    ("kind 9, field 5", behind_input(changed(record(TIE0), 8, b"\1")), "refused 4 at 1.5"),
    ("kind 10, field 2 over 255", behind_input(changed(record(TIE1), 3, b"\1")), "refused 4 at 1.2"),
    ("kind 10, field 3 over 255", behind_input(changed(record(TIE1), 5, b"\1")), "refused 4 at 1.3"),
    ("kind 10, field 4 over 255", behind_input(changed(record(TIE1), 7, b"\1")), "refused 4 at 1.4"),
    ("kind 10, field 5 over 255", behind_input(changed(record(TIE1), 9, b"\1")), "refused 4 at 1.5"),
    ("kind 10, fields 3 and 5", behind_input(changed(record(TIE1), 4, b"\1\0\0\0\1")), "refused 4 at 1.3"),
    # line 0
    ("kind 9 at line 0", image([record(TIE0)], [0]), "refused 4 at 0.0"),
    ("kind 10 at line 0", image([record(TIE1), record(INPUT)], [0]), "refused 4 at 0.0"),
    ("kind 9 at line 0 with a pin", image([record(TIE0, 0)], [0]), "refused 4 at 0.0"),
    ("kind 10 at line 0 with 255 pins", image([changed(record(TIE1), 1, b"\xff")], [0]), "refused 4 at 0.0"),
    ("kind 10 at line 0, field 4", image([changed(record(TIE1), 6, b"\1")], [0]), "refused 4 at 0.0"),
    ("kind 11 at line 0", image([record(11)], [0]), "refused 4 at 0.0"),
    ("kind 255 at line 0", image([record(255, 9, 9)], [0]), "refused 4 at 0.0"),
    ("a not at line 0", image([record(NOT, 0)], [0]), "refused 4 at 0.0"),
    ("a not of two pins at line 0", image([record(NOT, 0, 0)], [0]), "refused 4 at 0.0"),
    ("a buffer of no pin at line 0", image([record(BUFFER)], [0]), "refused 4 at 0.0"),
    ("an and at line 0", image([record(AND, 0, 0)], [0]), "refused 4 at 0.0"),
    ("an and of one pin at line 0", image([record(AND, 0)], [0]), "refused 4 at 0.0"),
    ("an exclusive-or of 255 pins at line 0", image([changed(record(XOR, 0, 0), 1, b"\xff")], [0]), "refused 4 at 0.0"),
    ("its opposite at line 0, field 5", image([changed(record(XNOR, 0, 0), 8, b"\1")], [0]), "refused 4 at 0.0"),
    ("an input with a pin at line 0", image([record(INPUT, 0)], [0]), "refused 4 at 0.1"),
    ("an input at line 0, field 2", image([changed(record(INPUT), 2, b"\1")], [0]), "refused 4 at 0.2"),
    # 2 and 3 come before 4, and 4 before 5
    ("a tie at line 0 and no output", image([record(TIE0)], []), "refused 2"),
    ("a tie at line 0 behind a note of 257", image([record(TIE0)], [0], note=bytes(257)), "refused 3"),
    ("a tie at line 0 and an output that is not there", image([record(TIE1)], [7]), "refused 4 at 0.0"),
    ("a tie and an output that is not there", image([record(INPUT), record(TIE1)], [1, 2]), "refused 5 at 1"),
]

# what an image is, the image, and what Check says of it
IMAGES = [
    ("board S", make.S, "board 12 lines 4 inputs 1 outputs"),
    ("board T", T, "board 3 lines 1 inputs 1 outputs"),
    ("board H", make.H, "board 4 lines 2 inputs 2 outputs"),
    ("the empty image", b"", "refused 1"),
    ("eleven bytes", T[-11:], "refused 1"),
    ("another mark", changed(T, -1, b"\x32"), "refused 1"),
    ("512 lines", image(chain(512), [511]), "board 512 lines 1 inputs 1 outputs"),
    ("513 lines", image(chain(513), [512]), "board 513 lines 1 inputs 1 outputs"),
    ("4,096 lines", image(chain(4096), [4095]), "board 4096 lines 1 inputs 1 outputs"),
    ("4,097 lines", image(chain(4097), [4095]), "refused 2"),
    ("an output not below 4,096 lines", image(chain(4096), [4095, 4096]), "refused 5 at 1"),
    ("a pin that names its own line 4,095", image([*chain(4095), record(BUFFER, 4095)], [0]), "refused 4 at 4095.2"),
    ("41,356 bytes", image(LARGEST, range(4032, 4096), note=bytes(256)), LARGEST_COUNTS),
    ("41,357 bytes", image(LARGEST, range(4032, 4096), note=bytes(257)), "refused 3"),
    ("41,357 bytes that end in T", bytes(41357 - 44) + T, "refused 3"),
    ("no line", image([], [0]), "refused 2"),
    ("64 outputs", image(chain(64), range(64)), "board 64 lines 1 inputs 64 outputs"),
    ("65 outputs", image(chain(65), range(65)), "refused 2"),
    ("no output", image(chain(2), []), "refused 2"),
    ("a trailer alone", T[-12:], "refused 3"),
    ("distance 0x1002C", changed(T, -6, b"\x01"), "refused 3"),
    ("a distance over the image", T[1:], "refused 3"),
    ("a note of 256", image(chain(3), [2], note=bytes(256)), "board 3 lines 1 inputs 1 outputs"),
    ("a note of 257", image(chain(3), [2], note=bytes(257)), "refused 3"),
    ("a note that holds an image", image(chain(3), [2], note=T), "board 3 lines 1 inputs 1 outputs"),
    ("24 inputs", image([record(INPUT)] * 24 + [record(AND, 0, 23)], [24]), "board 25 lines 24 inputs 1 outputs"),
    ("a 25th input at line 24", image([record(INPUT)] * 25 + [record(AND, 0, 23)], [24]), "board 26 lines 25 inputs 1 outputs"),
    ("32 inputs", image([record(INPUT)] * 32 + [record(AND, 0, 31)], [32]), "board 33 lines 32 inputs 1 outputs"),
    ("a 33rd input at line 32", image([record(INPUT)] * 33 + [record(AND, 0, 31)], [32]), "refused 4 at 32.0"),
    ("an input after a gate", image([record(INPUT), record(NOT, 0), record(INPUT)], [2]), "refused 4 at 2.0"),
    ("kind 11", image([record(INPUT), record(11, 0)], [1]), "refused 4 at 1.0"),
    ("255 pins", changed(T, 21, b"\xff"), "refused 4 at 2.1"),
    ("one pin of an and", image([record(INPUT), record(NOT, 0), record(AND, 0)], [2]), "refused 4 at 2.1"),
    ("a gate at line 0", image([record(BUFFER, 0)], [0]), "refused 4 at 0.0"),
    ("a pin that names its own line", image([record(INPUT), record(OR, 0, 1)], [1]), "refused 4 at 1.3"),
    ("an unused pin not 0", changed(T, 28, b"\x07"), "refused 4 at 2.5"),
    ("an output not below the line count", image(chain(3), [3]), "refused 5 at 0"),
    ("an output not above the one before", image(chain(3), [0, 2, 2]), "refused 5 at 2"),
    ("output line 0 in first place", image(chain(3), [0]), "board 3 lines 1 inputs 1 outputs"),
    *TIED_IMAGES,
]

# what is asked of board T, and the answer
ON_T = [
    ("judge 1 0/0", "no"),
    ("judge 2 0/0", "refused 8"),
    ("judge 0 1/0", "yes"),
    ("find 2/1", "none"),
    ("find 3/0", "refused 6"),
    ("find 2/2", "refused 7"),
    ("five 0 1 0/0", "refused 8"),
    ("refresh 3 0", "refused 6"),
    ("refresh 1 0", "refused 11"),
    ("alter 0 01010000000000000000", "refused 10"),
    ("alter 2 00000000000000000000", "refused 10"),
    ("alter 2 03020000020000000000", "refused 10"),
]


def book(word, *runs):
    """A book as the console writes it: its word, then runs of a number and how often it stands there."""
    return word + "".join(f" {number}" * times for number, times in runs)


# document 02, W1: a fault on one pin

# line 4 of board S is nor(1,2); only pattern 0 shows it at 0, so does a pin of it at 1, and at 0 none shows a pin of it
ON_S = [
    ("find 4.0/1", "0"),
    ("find 04.00/01", "0"),
    ("find 4.0/0", "none"),
    ("find 4.1/1", "0"),
    ("find 4.1/0", "none"),
    ("find 11.3/0", "8"),
    ("find 4.2/0", "refused 12"),
    ("find 11.4/0", "refused 12"),
    ("find 4.256/0", "refused 12"),
    ("find 4.65536/0", "refused 12"),
    ("find 4.4294967296/0", "refused 12"),
    ("find 4.1000000000000000000/0", "refused 12"),
    ("find 4.18446744073709551615/0", "refused 12"),
    ("find 0.0/0", "refused 12"),
    ("find 0.0/1", "refused 12"),
    ("find 0.3/1", "refused 12"),
    ("find 3.18446744073709551615/1", "refused 12"),
    ("find 12.0/0", "refused 6"),
    ("find 12.9/9", "refused 6"),
    ("find 4.2/2", "refused 7"),
    ("find 4.0/256", "refused 7"),
    ("find 0.0/2", "refused 7"),
    ("judge 0 4.0/1", "yes"),
    ("judge 1 4.0/1", "no"),
    ("judge 16 4.1/0", "refused 8"),
    ("judge 16 4.2/0", "refused 12"),
    ("judge 16 4.2/2", "refused 7"),
    ("judge 16 12.2/2", "refused 6"),
    ("rows 0 4.0/1", "filled"),
    ("show good 0", "row 000000000100000100010001"),
    ("show faulty 0", "row 000000000001010100010000"),
    ("lend rows 11 12", "lent"),
    ("rows 16 4.2/0", "refused 12"),
    ("rows 0 4.2/0", "refused 12"),
    ("rows 16 4.1/0", "refused 8"),
    ("rows 0 4.1/0", "refused 9"),
    ("five 0 1 4.2/0", "refused 12"),
    ("five 0 0 4.2/0", "refused 12"),
    ("five 0 1 4.1/0", "refused 8"),
    ("five 0 0 4.1/0", "refused 9"),
    ("show good 0", "row 0909090909090909090909"),
    ("lend pins 96", "lent"),
    ("lend book 24", "lent"),
    ("find 4.", "?"),
    ("find 4.0", "?"),
    ("find .0/1", "?"),
    ("find 4./1", "?"),
    ("find 4.0/", "?"),
    ("find 4.0.1/1", "?"),
    ("find 4/0.1", "?"),
    ("find 4.+0/1", "?"),
    ("find 4.18446744073709551616/1", "?"),
]

# board T is 1 not(0), 2 or(0,1), so that line 0 has two readers; its output is always 1
PINS_OF_T = [
    ("pin entries", book("pins", (99, 24))),
    ("rows 1 2.0/0", "filled"),
    ("show good 0", "row 010001"),
    ("show faulty 0", "row 010000"),
    ("rows 0 1.0/1", "filled"),
    ("show faulty 0", "row 000000"),
    ("five 1 1 2.0/0", "drives 1"),
    ("show good 0", "row 010003"),
    ("five 1 0 1.0/1", "drives 1"),
    ("show good 0", "row 000303"),
    ("five 1 1 1.0/0", "drives 0"),
    ("show good 0", "row 010401"),
    ("five 1 1 1.0/1", "drives 0"),
    ("show good 0", "row 010001"),
    ("five 0 0 2.0/0", "drives 0"),
    ("show good 0", "row 020202"),
    ("pin book", "found 3 of 24"),
    ("pin entries", book("pins", (NONE, 9), (0, 1), (NONE, 6), (1, 1), (NONE, 1), (0, 1), (NONE, 5))),
    ("entries", book("entries", (99, 6))),
    ("lend pins 0", "lent"),
    ("pin book", "refused 9"),
    ("lend pins 7", "lent"),
    ("pin book", "refused 9"),
    ("pin entries", book("pins", (99, 7))),
    ("lend pins 23", "lent"),
    ("pin book", "refused 9"),
    ("lend pins 25", "lent"),
    ("pin book", "refused 9"),
    ("lend pins 6", "lent"),
    ("pin book", "refused 9"),
    ("lend pins 65536", "lent"),
    ("put pin 65535 5", "lent"),
    ("put pin 65536 5", "?"),
    ("pin book", "refused 9"),
    ("lend pins 24", "lent"),
    ("lend pins 65537", "?"),
    ("put pin 23 18446744073709551615", "lent"),
    ("put pin 24 0", "?"),
    ("put pin 0 4294967296", "lent"),
    ("put pin 1 18446744073709551616", "?"),
    ("put pin 18446744073709551615 0", "?"),
    ("pin entries", book("pins", (4294967296, 1), (99, 22), (NONE, 1))),
]

# both lent books have to be of the right length, tested after 6 and before 10
LENT_TO_ALTER = [
    ("lend book 5", "lent"),
    ("alter 2 03020000010000000000", "refused 9"),
    ("lend book 7", "lent"),
    ("alter 2 03020000010000000000", "refused 9"),
    ("lend book 6", "lent"),
    ("lend pins 23", "lent"),
    ("alter 2 03020000010000000000", "refused 9"),
    ("lend pins 25", "lent"),
    ("alter 2 03020000010000000000", "refused 9"),
    ("alter 0 01010000000000000000", "refused 9"),
    ("alter 2 00000000000000000000", "refused 9"),
    ("alter 3 00000000000000000000", "refused 6"),
    ("entries", book("entries", (99, 6))),
    ("pin entries", book("pins", (99, 25))),
    ("lend book 24", "lent"),
    ("lend pins 6", "lent"),
    ("alter 2 03020000010000000000", "refused 9"),
    ("lend pins 24", "lent"),
    ("alter 2 03020000010000000000", "refused 9"),
    ("image", "image " + T.hex()),
    ("lend book 6", "lent"),
    ("alter 0 01010000000000000000", "refused 10"),
    ("alter 2 00000000000000000000", "refused 10"),
    ("pin entries", book("pins", (99, 24))),
    ("alter 2 03020000010000000000", "found 5 of 30"),
    ("entries", book("entries", (NONE, 3), (1, 1), (NONE, 1), (0, 1))),
    ("pin entries", book("pins", (NONE, 8), (1, 1), (NONE, 8), (0, 1), (NONE, 1), (1, 1), (NONE, 4))),
]

# T with line 2 as not(1), which has one pin, and then as or(0,1) again
PIN_TAKEN_AWAY = [
    ("put pin 18 7", "lent"),
    ("find 2.1/0", "0"),
    ("alter 2 02010100000000000000", "found 10 of 30"),
    ("entries", "entries 1 0 0 1 1 0"),
    ("pin entries", book("pins", (NONE, 8), (1, 1), (0, 1), (NONE, 6), (0, 1), (1, 1), (NONE, 6))),
    ("find 2.1/0", "refused 12"),
    ("find 2.0/0", "0"),
    ("alter 2 05020000010000000000", "found 5 of 30"),
    ("entries", book("entries", (NONE, 2), (0, 1), (NONE, 1), (0, 1), (NONE, 1))),
    ("pin entries", book("pins", (NONE, 9), (0, 1), (NONE, 6), (1, 1), (NONE, 1), (0, 1), (NONE, 5))),
    ("find 2.1/0", "0"),
]

# on board H line 3 shares its output with line 1 alone, and as and(0,1) with line 0 too; never with line 2
PINS_OF_H = [
    ("alter 3 02010100000000000000", "found 26 of 40"),
    ("entries", "entries 99 99 2 0 99 99 0 2"),
    ("pin entries", book("pins", (99, 8), (NONE, 8), (99, 8), (2, 1), (0, 1), (NONE, 6))),
    ("alter 3 01010100000000000000", "found 26 of 40"),
    ("book", "found 8 of 8"),
    ("entries", "entries 1 0 2 0 0 1 2 0"),
    ("pin book", "found 4 of 32"),
    ("pin entries", book("pins", (NONE, 16), (1, 1), (0, 1), (NONE, 6), (2, 1), (0, 1), (NONE, 6))),
    ("put entry 0 99", "lent"),
    ("put entry 2 99", "lent"),
    ("put pin 0 99", "lent"),
    ("put pin 8 99", "lent"),
    ("put pin 16 77", "lent"),
    ("put pin 17 18446744073709551615", "lent"),
    ("put pin 18 99", "lent"),
    ("put pin 26 66", "lent"),
    ("alter 3 02010100000000000000", "found 13 of 40"),
    ("entries", "entries 99 0 2 0 0 1 0 2"),
    ("pin entries", book("pins", (99, 1), (NONE, 15), (77, 1), (NONE, 1), (99, 1), (NONE, 5), (2, 1), (0, 1), (NONE, 6))),
    ("alter 3 03020000010000000000", "found 14 of 40"),
    ("entries", "entries 1 0 3 1 0 1 3 0"),
    ("pin entries", book("pins", (NONE, 16), (77, 1), (NONE, 1), (99, 1), (NONE, 5), (3, 1), (2, 1), (3, 1), (1, 1), (NONE, 4))),
]

# a gate that reaches no output, altered from and(0,1) to not(0): nothing is touched
LOOSE = image([record(INPUT), record(INPUT), record(AND, 0, 1)], [0])
PINS_OF_LOOSE = [
    ("find 2.1/0", "none"),
    ("alter 2 02010000000000000000", "found 30 of 30"),
    ("entries", book("entries", (99, 6))),
    ("pin entries", book("pins", (99, 24))),
    ("find 2.1/0", "refused 12"),
    ("find 2.0/0", "none"),
]

# inputs alone have no pin, and so nothing to search for, however many patterns there are
INPUTS = image([record(INPUT)] * 32, [31])
PINS_OF_INPUTS = [
    ("pin book", "found 0 of 256"),
    ("pin entries", book("pins", (NONE, 256))),
    ("find 31.0/0", "refused 12"),
    ("alter 31 01010000000000000000", "refused 10"),
]

# five values of and(0,1): an x on the held pin stays x, and a settled one that differs reads D or D-bar
ONE_AND = image([record(INPUT), record(INPUT), record(AND, 0, 1)], [2])
PINS_OF_AND = [
    ("five 3 3 2.1/0", "drives 1"),
    ("show good 0", "row 010103"),
    ("five 3 1 2.1/1", "drives 1"),
    ("show good 0", "row 010004"),
    ("five 3 3 2.1/1", "drives 0"),
    ("show good 0", "row 010101"),
    ("five 2 2 2.0/0", "drives 0"),
    ("show good 0", "row 020102"),
    ("five 2 0 2.0/1", "drives 0"),
    ("show good 0", "row 020000"),
]

# a refused image lends a pin book of length 0
REFUSED = changed(T, 30, b"\x03\x00")
PINS_OF_REFUSED = [
    ("pin entries", "pins"),
    ("put pin 0 1", "?"),
    ("pin book", "refused 5 at 0"),
    ("find 0.0/0", "refused 5 at 0"),
    ("lend pins 24", "lent"),
    ("pin book", "refused 5 at 0"),
    ("alter 2 03020000010000000000", "refused 5 at 0"),
    ("pin entries", book("pins", (99, 24))),
]

# document 02, W2: which lines share an output with the altered one. Every number of a book is 99 at first, so that what was touched shows

# 64 outputs, lines 2 to 65, each a buffer: 63 of input 0 and the 64th of input 1. So line 65 shares the 64th with input 1 and nothing else, and line
# 2 the first with input 0
SIDE_BY_SIDE = image([record(INPUT)] * 2 + [record(BUFFER, 0)] * 63 + [record(BUFFER, 1)], range(2, 66))
ON_SIDE_BY_SIDE = [
    ("alter 65 02010100000000000000", "found 646 of 660"),  # not(1)
    ("entries", book("entries", (99, 2), (2, 1), (0, 1), (99, 126), (0, 1), (2, 1))),
    ("pin entries", book("pins", (99, 8), (NONE, 8), (99, 504), (2, 1), (0, 1), (NONE, 6))),
    ("alter 2 02010000000000000000", "found 632 of 660"),  # not(0)
    ("entries", book("entries", (1, 1), (0, 1), (2, 1), (0, 1), (0, 1), (1, 1), (99, 124), (0, 1), (2, 1))),
    ("pin entries", book("pins", (NONE, 16), (1, 1), (0, 1), (NONE, 6), (99, 496), (2, 1), (0, 1), (NONE, 6))),
    # line 65 as or(0,1), which input 0 shares in the board after alone, then as buffer(1), in the board before alone, then as not(1), in neither
    ("put entry 0 99", "lent"),
    ("put entry 4 99", "lent"),
    ("alter 65 05020000010000000000", "found 634 of 660"),
    ("entries", book("entries", (1, 1), (0, 1), (2, 1), (0, 1), (99, 1), (1, 1), (99, 124), (1, 1), (0, 1))),
    ("pin entries", book("pins", (NONE, 16), (1, 1), (0, 1), (NONE, 6), (99, 496), (1, 1), (0, 1), (2, 1), (0, 1), (NONE, 4))),
    ("put entry 0 99", "lent"),
    ("alter 65 01010100000000000000", "found 632 of 660"),
    ("entries", book("entries", (1, 1), (0, 1), (2, 1), (0, 1), (99, 1), (1, 1), (99, 124), (2, 1), (0, 1))),
    ("put entry 0 99", "lent"),
    ("alter 65 02010100000000000000", "found 632 of 660"),
    ("entries", book("entries", (99, 1), (0, 1), (2, 1), (0, 1), (99, 1), (1, 1), (99, 124), (0, 1), (2, 1))),
]

# 64 outputs, all lines of a chain: every line shares the 64th alone with line 63
ON_CHAIN = [
    ("alter 63 02013e00000000000000", "found 254 of 640"),  # line 63 as not(62)
    ("entries", book("entries", *[(1, 1), (0, 1)] * 63, (0, 1), (1, 1))),
    ("pin entries", book("pins", (NONE, 8), *[(1, 1), (0, 1), (NONE, 6)] * 63)),
]


def link(line):
    """The or on a line of board D's chain: the line before is on its last pin, pin 1, 2 or 3 as the chain goes, and input 1 on those below that."""
    return record(OR, *[1] * (1 + (line - 2) % 3), line - 1)


# board D has 512 lines. Lines 2 to 41 are a chain of ors from input 0 to line 511, the 64th output, through pins 1, 2 and 3 in turn; all their
# other pins are input 1. Lines 42 to 447 reach no output, and lines 448 to 510 are the other outputs; all these are buffers of input 1
CHAIN_OF_D = [record(OR, 1, 0)] + [link(line) for line in range(3, 42)]
D = image([record(INPUT)] * 2 + CHAIN_OF_D + [record(BUFFER, 1)] * 469 + [record(OR, 1, 1, 1, 41)], range(448, 512))


def pins_of_or(*counts):
    """The pin entries of ors of that chain with so many pins. Where input 1 is 1 so is line 511, whatever one pin reads; pattern 0 shows all at 1."""
    return [run for n in counts for run in [*[(NONE, 1), (0, 1)] * (n - 1), (1, 1), (0, 1), (NONE, 8 - 2 * n)]]


# such an or is 1 where either input is: pattern 1 shows it at 0, and pattern 0 at 1
PINS_OF_CHAIN = pins_of_or(3, *[3, 4, 2] * 13)
ON_D = [
    ("alter 2 05030100010000000000", "found 4941 of 5120"),  # or(1,1,0)
    ("entries", book("entries", (1, 1), (0, 1), (2, 1), (0, 1), *[(1, 1), (0, 1)] * 40, (99, 938), (1, 1), (0, 1))),
    ("pin entries", book("pins", (NONE, 16), *PINS_OF_CHAIN, (99, 3752), *pins_of_or(4))),
    # line 42 reaches nothing, before and after; line 41 feeds it and is not touched
    ("put entry 82 77", "lent"),
    ("alter 42 08042900010000002900", "found 4941 of 5120"),  # xnor(41,1,0,41)
    ("entries", book("entries", (1, 1), (0, 1), (2, 1), (0, 1), *[(1, 1), (0, 1)] * 39, (77, 1), (0, 1), (99, 938), (1, 1), (0, 1))),
    # the first output as and(0,1): both inputs share it, input 0 in the board after alone; the chain does not
    ("put entry 0 77", "lent"),
    ("put entry 2 77", "lent"),
    ("alter 448 03020000010000000000", "found 4937 of 5120"),
    ("entries", book("entries", (1, 1), (0, 1), (2, 1), (0, 1), *[(1, 1), (0, 1)] * 39, (77, 1), (0, 1), (99, 812), (3, 1), (0, 1),
                     (99, 124), (1, 1), (0, 1))),
    ("pin entries", book("pins", (NONE, 16), *PINS_OF_CHAIN, (99, 3248), (3, 1), (2, 1), (3, 1), (1, 1), (NONE, 4), (99, 496), *pins_of_or(4))),
    # line 40 as buffer(1): lines 2 to 39 share line 511 with it in the board before alone, and reach nothing after
    ("alter 40 01010100000000000000", "found 4701 of 5120"),
    ("entries", book("entries", (3, 1), (2, 1), (2, 1), (0, 1), (NONE, 76), *[(NONE, 1), (0, 1)] * 2, (99, 812), (3, 1), (0, 1),
                     (99, 124), (2, 1), (0, 1))),
    ("pin entries", book("pins", (NONE, 320), (NONE, 1), (0, 1), (NONE, 6), *[(NONE, 1), (0, 1)] * 2, (NONE, 4),
                         (99, 3248), (3, 1), (2, 1), (3, 1), (1, 1), (NONE, 4), (99, 496), *[(NONE, 1), (0, 1)] * 4)),
]

# outputs that are inputs: lines 0 and 1, and gate 2, which is and(0,1); line 3 is not(2) and reaches none
INPUTS_OUT = image([record(INPUT)] * 2 + [record(AND, 0, 1), record(NOT, 2)], [0, 1, 2])
ON_INPUTS_OUT = [
    ("alter 3 05020000010000000000", "found 40 of 40"),  # or(0,1): no gate reaches an input, though it is an output
    ("entries", book("entries", (99, 8))),
    ("pin entries", book("pins", (99, 32))),
    ("alter 2 01010000000000000000", "found 18 of 40"),  # buffer(0): input 1 is touched by the board before
    ("entries", "entries 1 0 2 0 1 0 99 99"),
    ("pin entries", book("pins", (NONE, 16), (1, 1), (0, 1), (NONE, 6), (99, 8))),
    ("put entry 2 77", "lent"),
    ("put pin 8 77", "lent"),
    ("alter 2 02010000000000000000", "found 19 of 40"),  # not(0): input 1 shares its own output with nothing
    ("entries", "entries 1 0 77 0 0 1 99 99"),
    ("pin entries", book("pins", (NONE, 8), (77, 1), (NONE, 7), (1, 1), (0, 1), (NONE, 6), (99, 8))),
]

# outputs that feed outputs: 1 is buffer(0), 2 buffer(1), 3 buffer(0), and each is an output
FEEDING = image([record(INPUT), record(BUFFER, 0), record(BUFFER, 1), record(BUFFER, 0)], [1, 2, 3])
ON_FEEDING = [
    ("alter 1 02010000000000000000", "found 20 of 40"),  # not(0), which shares line 2 with 2, and nothing with 3
    ("entries", "entries 1 0 0 1 0 1 99 99"),
    ("pin entries", book("pins", (NONE, 8), (1, 1), (0, 1), (NONE, 6), (0, 1), (1, 1), (NONE, 6), (99, 8))),
    ("alter 3 02010000000000000000", "found 14 of 40"),  # not(0), which shares itself with input 0 alone
    ("entries", "entries 1 0 0 1 0 1 0 1"),
    ("pin entries", book("pins", (NONE, 8), (1, 1), (0, 1), (NONE, 6), (0, 1), (1, 1), (NONE, 6), (1, 1), (0, 1), (NONE, 6))),
]

# document 02, W3: exclusive-or is 1 when an odd number of its pins is 1

# three inputs; line 3 is their exclusive-or and line 4 its opposite
ODD_OF_3 = image([record(INPUT)] * 3 + [record(XOR, 0, 1, 2), record(XNOR, 0, 1, 2)], [3, 4])
ON_ODD_OF_3 = [
    ("rows 7 3/0", "filled"),  # 1,1,1
    ("show good 0", "row 0101010100"),
    ("show faulty 0", "row 0101010000"),
    ("rows 3 3.2/1", "filled"),  # 1,1,0, and 1,1,1 for line 3's gate
    ("show good 0", "row 0101000001"),
    ("show faulty 0", "row 0101000101"),
    ("rows 4 4/0", "filled"),  # 0,0,1
    ("show good 0", "row 0000010100"),
    ("judge 7 3/0", "yes"),
    ("judge 7 3/1", "no"),
    ("judge 7 4/0", "no"),
    ("judge 7 4/1", "yes"),
    ("judge 7 3.0/0", "yes"),
    ("judge 7 3.1/0", "yes"),
    ("judge 7 4.2/0", "yes"),
    ("judge 7 4.2/1", "no"),
    ("five 3 3 2/0", "drives 0"),  # 1,1,x
    ("show good 0", "row 0101020202"),
    ("five 5 5 3/1", "drives 0"),  # 1,x,1
    ("show good 0", "row 0102010202"),
    ("five 6 6 4/1", "drives 0"),  # x,1,1
    ("show good 0", "row 0201010202"),
    ("five 7 7 2/0", "drives 2"),  # 1,1,D
    ("show good 0", "row 0101030304"),
    ("five 7 3 2/1", "drives 2"),  # 1,1,D-bar
    ("show good 0", "row 0101040403"),
    ("five 7 7 3.1/0", "drives 1"),  # line 3's gate reads 1,D,1
    ("show good 0", "row 0101010300"),
    ("five 5 5 3.1/0", "drives 0"),  # an x on the held pin stays x
    ("show good 0", "row 0102010202"),
    ("five 6 6 4.2/0", "drives 0"),  # x,1,D
    ("show good 0", "row 0201010202"),
]

# four inputs; line 4 is their exclusive-or and line 5 its opposite
ODD_OF_4 = image([record(INPUT)] * 4 + [record(XOR, 0, 1, 2, 3), record(XNOR, 0, 1, 2, 3)], [4, 5])
ON_ODD_OF_4 = [
    ("rows 15 4/1", "filled"),  # 1,1,1,1
    ("show good 4", "row 0001"),
    ("show faulty 4", "row 0101"),
    ("rows 7 4/1", "filled"),  # three at 1, each pin in turn at 0
    ("show good 4", "row 0100"),
    ("rows 11 4/1", "filled"),
    ("show good 4", "row 0100"),
    ("rows 13 4/1", "filled"),
    ("show good 4", "row 0100"),
    ("rows 14 4/1", "filled"),
    ("show good 4", "row 0100"),
    ("rows 9 4/1", "filled"),  # two at 1
    ("show good 4", "row 0001"),
    ("rows 8 4/1", "filled"),  # the last pin alone
    ("show good 4", "row 0100"),
    ("judge 15 4.3/0", "yes"),
    ("judge 7 4.3/1", "yes"),
    ("judge 15 5.3/0", "yes"),
    ("judge 7 5.3/0", "no"),
    ("five 14 14 4/0", "drives 0"),  # x,1,1,1
    ("show good 0", "row 020101010202"),
    ("five 13 13 4/0", "drives 0"),  # 1,x,1,1
    ("show good 0", "row 010201010202"),
    ("five 11 11 4/0", "drives 0"),  # 1,1,x,1
    ("show good 0", "row 010102010202"),
    ("five 7 7 4/0", "drives 0"),  # 1,1,1,x
    ("show good 0", "row 010101020202"),
    ("five 15 15 3/0", "drives 2"),  # 1,1,1,D
    ("show good 0", "row 010101030403"),
    ("five 15 7 5.3/1", "drives 1"),  # line 5's gate reads 1,1,1,D-bar
    ("show good 0", "row 010101000104"),
    ("find 3/0", "8"),
    ("find 4.3/0", "8"),
    ("find 5.3/1", "0"),
    ("book", "found 12 of 12"),
    ("entries", "entries 1 0 2 0 4 0 8 0 1 0 0 1"),
    ("pin book", "found 16 of 48"),
    ("pin entries", book("pins", (NONE, 32)) + " 1 0 2 0 4 0 8 0" * 2),
]

# two inputs; line 2 is their and, line 3 the exclusive-or of all three, which is so the or of the inputs: both at 1 put all three at 1
ODD_OR = image([record(INPUT)] * 2 + [record(AND, 0, 1), record(XOR, 0, 1, 2)], [3])
ON_ODD_OR = [
    ("find 2/0", "3"),
    ("find 2.0/0", "3"),
    ("find 3.2/0", "3"),
    ("book", "found 8 of 8"),
    ("entries", "entries 1 0 2 0 3 0 1 0"),
    ("pin book", "found 10 of 32"),
    ("pin entries", book("pins", (NONE, 16), (3, 1), (2, 1), (3, 1), (1, 1), (NONE, 4), (1, 1), (0, 1), (2, 1), (0, 1), (3, 1), (0, 1), (NONE, 2))),
    ("alter 3 08030000010002000000", "found 18 of 40"),  # its opposite, a nor
    ("entries", "entries 1 0 2 0 3 0 0 1"),
    ("alter 2 07020000010000000000", "found 13 of 40"),  # line 2 as xor(0,1): then line 3 reads an even number of 1s, and is always 1
    ("entries", book("entries", (NONE, 4), (1, 1), (0, 1), (0, 1), (NONE, 1))),
    ("pin entries", book("pins", (NONE, 16), (1, 1), (0, 1), (2, 1), (0, 1), (NONE, 4), (1, 1), (0, 1), (2, 1), (0, 1), (1, 1), (0, 1), (NONE, 2))),
]

# document 02, W4: the last pattern of a board, and the first and the last of a word of 64 and of a block of 512


def all_ones(inputs):
    """A board whose output, line 2 x inputs - 2, is the and of all its inputs, two lines at a time."""
    return image([record(INPUT)] * inputs + [record(AND, 0, 1)] + [record(AND, inputs + i, i + 2) for i in range(inputs - 2)], [2 * inputs - 2])


def last_alone(inputs):
    """A board whose output is a buffer behind its last input."""
    return image([record(INPUT)] * inputs + [record(BUFFER, inputs - 1)], [inputs])


def on_all_ones(inputs, last, but_first, but_last):
    """Its output at 0 and a pin of it, its first input at 1 and its last: all 1s, all but the first and all but the last are the smallest."""
    output = 2 * inputs - 2
    return [(f"find {output}/0", str(last)), (f"find {output}/1", "0"), (f"find {output}.1/0", str(last)), (f"find {output}.1/1", str(but_last)),
            ("find 0/0", str(last)), ("find 0/1", str(but_first)), (f"find {inputs - 1}/1", str(but_last))]


def on_last_alone(inputs, last):
    """The last input at 0 by itself and as a pin, which only its own bit shows; the first input, which no pattern shows."""
    return [(f"find {inputs - 1}/0", str(last)), (f"find {inputs}.0/0", str(last)), (f"find {inputs}/1", "0"), ("find 0/0", "none"), ("find 0/1", "none")]


# inputs, and the numbers that are the smallest patterns there
LAST_PATTERNS = [(2, 3, 2, 1), (5, 31, 30, 15), (6, 63, 62, 31), (7, 127, 126, 63), (9, 511, 510, 255), (10, 1023, 1022, 511), (25, 33554431, 33554430, 16777215)]
FIRST_PATTERNS = [(6, 32), (7, 64), (9, 256), (10, 512), (11, 1024), (25, 16777216)]
ON_LAST = [(f"all ones of {row[0]}", all_ones(row[0]), f"board {2 * row[0] - 1} lines {row[0]} inputs 1 outputs", on_all_ones(*row)) for row in LAST_PATTERNS]
ON_FIRST = [(f"the last of {n} alone", last_alone(n), f"board {n + 1} lines {n} inputs 1 outputs", on_last_alone(n, last)) for n, last in FIRST_PATTERNS]
# T's book twice over, so that a second filling starts from a filled one
TWICE = [("book", "found 2 of 6"), ("book", "found 2 of 6"), ("entries", book("entries", (NONE, 2), (0, 1), (NONE, 1), (0, 1), (NONE, 1)))]

# document 02, W5: drawings as text


def read(text):
    """The command that reads a text."""
    return f"read {text.encode('latin-1').hex() or '-'}"


# texts that depart from the form, and the length of the longest beginning that some text of the form shares
DEPARTS = [
    # what begins no statement
    ("x", 0),
    ("\n", 0),
    (" INPUT(n0)\n", 0),
    ("input(n0)\n", 0),
    ("N0 = NOT(n0)\n", 0),
    ("\xff", 0),
    ("\0", 0),
    ("INPUT(n0)\n\n", 10),
    ("INPUT(n0)\nx", 10),
    ("INPUT(n0)\n\0", 10),
    ("INPUT(n0)\n INPUT(n1)\n", 10),
    # a text that ends too soon shares all of itself
    ("I", 1),
    ("INPUT(n", 7),
    ("INPUT(n0", 8),
    ("INPUT(n0)", 9),
    ("O", 1),
    ("OUTPUT(n1", 9),
    ("OUTPUT(n65535", 13),
    ("n", 1),
    ("n0 = ", 5),
    ("n0 = X", 6),
    ("n0 = XNOR", 9),
    ("n0 = NOR(n1,", 12),
    ("n0 = NOR(n1, n2)", 16),
    ("INPUT(n0)\nOUTPUT(n2)\nn1 = NOT(n0)\nn2 = OR(n0, n1)", 49),
    # INPUT: its number is the next one
    ("INPUT(n1)\n", 7),
    ("INPUT(n00)\n", 8),
    ("INPUT(n01)\n", 8),
    ("INPUT(n)\n", 7),
    ("INPUT()\n", 6),
    ("INPUT(0)\n", 6),
    ("INPUT(N0)\n", 6),
    ("INPUT( n0)\n", 6),
    ("INPUT (n0)\n", 5),
    ("INPUTS(n0)\n", 5),
    ("Input(n0)\n", 1),
    ("INPUT(n0 )\n", 8),
    ("INPUT(n0, n1)\n", 8),
    ("INPUT(n0)\r\n", 9),
    ("INPUT(n0) \n", 9),
    ("INPUT(n0);\n", 9),
    ("INPUT(n0)INPUT(n1)\n", 9),
    ("INPUT(n0)\nINPUT(n0)\n", 17),
    ("INPUT(n0)\nINPUT(n2)\n", 17),
    ("INPUT(n0)\nINPUT(n10)\n", 18),
    # OUTPUT: any number up to 65,535
    ("OUTPUT(n65536)\n", 12),
    ("OUTPUT(n65540)\n", 12),
    ("OUTPUT(n99999)\n", 12),
    ("OUTPUT(n100000)\n", 13),
    ("OUTPUT(n655350)\n", 13),
    ("OUTPUT(n4294967296)\n", 13),
    ("OUTPUT(n18446744073709551616)\n", 13),
    ("OUTPUT(n00)\n", 9),
    ("OUTPUT(n01)\n", 9),
    ("OUTPUT(n)\n", 8),
    ("OUTPUT()\n", 7),
    ("OUTPUT(n-1)\n", 8),
    ("OUTPUT(n+1)\n", 8),
    ("OUTPUT(n1a)\n", 9),
    ("OUTPUT(n0x1)\n", 9),
    ("OUTPUT(n1.0)\n", 9),
    ("OUTPUT(n1, n2)\n", 9),
    ("Output(n0)\n", 1),
    ("OUTPUT(n0)\r\n", 10),
    # inputs, then outputs, then gates
    ("OUTPUT(n0)\nINPUT(n0)\n", 11),
    ("INPUT(n0)\nn1 = NOT(n0)\nOUTPUT(n1)\n", 23),
    ("INPUT(n0)\nn1 = NOT(n0)\nINPUT(n1)\n", 23),
    ("n0 = NOT(n0)\nINPUT(n1)\n", 13),
    # a gate's number is the next one
    ("n1 = NOT(n0)\n", 1),
    ("n00 = NOT(n0)\n", 2),
    ("n01 = NOT(n0)\n", 2),
    ("INPUT(n0)\nn0 = NOT(n0)\n", 11),
    ("INPUT(n0)\nn2 = NOT(n0)\n", 11),
    ("INPUT(n0)\nn01 = NOT(n0)\n", 11),
    ("INPUT(n0)\nn10 = NOT(n0)\n", 12),
    ("INPUT(n0)\nn1 = NOT(n0)\nn1 = NOT(n0)\n", 24),
    ("INPUT(n0)\nn1 = NOT(n0)\nn3 = NOT(n0)\n", 24),
    # one space each side of =, one after each comma, and no other
    ("n0= NOT(n0)\n", 2),
    ("n0\t= NOT(n0)\n", 2),
    ("n0  = NOT(n0)\n", 3),
    ("n0 == NOT(n0)\n", 4),
    ("n0 =NOT(n0)\n", 4),
    ("n0 =  NOT(n0)\n", 5),
    ("n0 = NOT (n0)\n", 8),
    ("n0 = NOT( n0)\n", 9),
    ("n0 = NOT(n0 )\n", 11),
    ("n0 = AND(n0,n0)\n", 12),
    ("n0 = AND(n0,  n0)\n", 13),
    ("n0 = AND(n0 , n0)\n", 11),
    ("n0 = AND(n0, n0) \n", 16),
    ("n0 = AND(n0, n0)\r\n", 16),
    # words
    ("n0 = (n0)\n", 5),
    ("n0 = B(n0)\n", 6),
    ("n0 = BUF(n0)\n", 8),
    ("n0 = BUFFER(n0)\n", 9),
    ("n0 = N(n0)\n", 6),
    ("n0 = NO(n0)\n", 7),
    ("n0 = NOTE(n0)\n", 8),
    ("n0 = NORX(n0)\n", 8),
    ("n0 = NA(n0)\n", 7),
    ("n0 = NAN(n0)\n", 8),
    ("n0 = NANOR(n0)\n", 8),
    ("n0 = NANDS(n0)\n", 9),
    ("n0 = A(n0)\n", 6),
    ("n0 = AN(n0)\n", 7),
    ("n0 = ANDX(n0)\n", 8),
    ("n0 = O(n0)\n", 6),
    ("n0 = ORN(n0)\n", 7),
    ("n0 = X(n0)\n", 6),
    ("n0 = XAND(n0)\n", 6),
    ("n0 = XO(n0)\n", 7),
    ("n0 = XORN(n0)\n", 8),
    ("n0 = XN(n0)\n", 7),
    ("n0 = XNAND(n0)\n", 7),
    ("n0 = XNO(n0)\n", 8),
    ("n0 = XNOT(n0)\n", 8),
    ("n0 = XNORS(n0)\n", 9),
    ("n0 = not(n0)\n", 5),
    ("n0 = And(n0)\n", 6),
    ("n0 = INPUT(n0)\n", 5),
    # TIE0 and TIE1 share TIE with each other, and a T with no other word
    ("n0 = T", 6),
    ("n0 = TI", 7),
    ("n0 = TIE", 8),
    ("n0 = TIE0", 9),
    ("n0 = TIE1", 9),
    ("n0 = T()\n", 6),
    ("n0 = T0()\n", 6),
    ("n0 = TX", 6),
    ("n0 = TI()\n", 7),
    ("n0 = TI0()\n", 7),
    ("n0 = TIX", 7),
    ("n0 = TIE()\n", 8),
    ("n0 = TIE(n0)\n", 8),
    ("n0 = TIE2()\n", 8),
    ("n0 = TIE9()\n", 8),
    ("n0 = TIEO()\n", 8),
    ("n0 = TIED()\n", 8),
    ("n0 = TIE 0()\n", 8),
    ("n0 = TIE-0()\n", 8),
    ("n0 = TIE00()\n", 9),
    ("n0 = TIE01()\n", 9),
    ("n0 = TIE10()\n", 9),
    ("n0 = TIE11()\n", 9),
    ("n0 = TIE0 ()\n", 9),
    ("n0 = TIE0\n", 9),
    ("n0 = TIE1)\n", 9),
    ("n0 = TIE1[]\n", 9),
    ("n0 = tie0()\n", 5),
    ("n0 = Tie0()\n", 6),
    ("n0 = TIe1()\n", 7),
    ("n0 = NTIE0()\n", 6),
    ("n0 = XTIE1()\n", 6),
    ("n0 = 0()\n", 5),
    ("n0 = ()\n", 5),
    ("TIE0()\n", 0),
    # empty brackets behind them, and nothing in these
    ("n0 = TIE0(", 10),
    ("n0 = TIE1(", 10),
    ("n0 = TIE0(n", 10),
    ("n0 = TIE0(n0", 10),
    ("n0 = TIE0(n0)\n", 10),
    ("n0 = TIE1(n0)\n", 10),
    ("n0 = TIE1(n0, n0)\n", 10),
    ("n0 = TIE0( )\n", 10),
    ("n0 = TIE1(0)\n", 10),
    ("n0 = TIE0(,)\n", 10),
    ("n0 = TIE0(()\n", 10),
    ("n0 = TIE1(\n", 10),
    ("n0 = TIE0()", 11),
    ("n0 = TIE1()", 11),
    ("n0 = TIE0())\n", 11),
    ("n0 = TIE0() \n", 11),
    ("n0 = TIE1()\r\n", 11),
    ("n0 = TIE1(), n0\n", 11),
    ("n0 = TIE0()TIE1()\n", 11),
    # a tie is a gate: its number is the next one, and no input or output comes after it
    ("n0= TIE0()\n", 2),
    ("n0 =TIE1()\n", 4),
    ("n0 =  TIE1()\n", 5),
    ("n1 = TIE0()\n", 1),
    ("n0 = TIE0()\n\n", 12),
    ("n0 = TIE0()\nTIE1()\n", 12),
    ("n0 = TIE0()\nINPUT(n1)\n", 12),
    ("n0 = TIE1()\nOUTPUT(n0)\n", 12),
    ("n0 = TIE0()\nn0 = TIE1()\n", 13),
    ("n0 = TIE1()\nn2 = TIE0()\n", 13),
    ("INPUT(n0)\nn0 = TIE0()\n", 11),
    ("INPUT(n0)\nn1 = TIE1()\nINPUT(n2)\n", 22),
    ("INPUT(n0)\nn1 = TIE1()\nn2 = TIE1(n0)\n", 32),
    # one to four pins behind every other word
    ("n0 = BUFF()\n", 10),
    ("n0 = NOT()\n", 9),
    ("n0 = NAND()\n", 10),
    ("n0 = OR()\n", 8),
    ("n0 = NOR()\n", 9),
    ("n0 = XOR()\n", 9),
    ("n0 = XNOR()\n", 10),
    ("n0 = AND()\n", 9),
    ("n0 = AND(0)\n", 9),
    ("n0 = AND(n)\n", 10),
    ("n0 = AND(n0\n", 11),
    ("n0 = AND(n0))\n", 12),
    ("n0 = AND(n0,)\n", 12),
    ("n0 = AND(n0, )\n", 13),
    ("n0 = AND(n0; n0)\n", 11),
    ("n0 = AND(n00)\n", 11),
    ("n0 = AND(n7x)\n", 11),
    ("n0 = AND(n65536)\n", 14),
    ("n0 = AND(n0, n0, n0, n65536)\n", 26),
    ("n0 = AND(n0, n0, n0, n0, n0)\n", 23),
    ("n0 = NOT(n0, n1, n2, n3,)\n", 23),
]


def drawn(*gates, outputs=(0,), inputs=1):
    """The text of so many inputs, these outputs and these gates, each as its word and pins, numbered on."""
    statements = [f"INPUT(n{i})" for i in range(inputs)] + [f"OUTPUT(n{i})" for i in outputs]
    statements += [f"n{inputs + i} = {gate}" for i, gate in enumerate(gates)]
    return "".join(statement + "\n" for statement in statements)


def buffers(lines):
    """The gates of a chain of so many lines."""
    return [f"BUFF(n{i})" for i in range(lines - 1)]


# texts of the form, and what document 01's rules say of the board that they name
NAMED = [
    ("", "refused 2"),
    ("INPUT(n0)\n", "refused 2"),
    ("OUTPUT(n0)\n", "refused 2"),
    ("OUTPUT(n65535)\n", "refused 2"),
    ("n0 = NOT(n0)\n", "refused 2"),
    ("n0 = AND(n65535)\n", "refused 2"),
    (drawn("AND(n0)", outputs=()), "refused 2"),
    (drawn(outputs=range(64)), "refused 5 at 1"),
    (drawn(outputs=range(65)), "refused 2"),
    (drawn(*buffers(64), outputs=range(64)), "read 780"),
    (drawn(*buffers(65), outputs=range(65)), "refused 2"),
    (drawn(*buffers(512), outputs=[511]), "read 5134"),
    (drawn(*buffers(513), outputs=[511]), "read 5144"),
    (drawn(*buffers(512), "NOT(n512, n512)", outputs=[600]), "refused 4 at 512.1"),
    (drawn(*["NOT(n0)"] * 4095, outputs=[4095]), "read 40974"),
    (drawn(*["NOT(n0)"] * 4095, outputs=[4096]), "refused 5 at 0"),
    (drawn(*["NOT(n0)"] * 4096, outputs=[4095]), "refused 2"),
    (drawn(*["NOT(n0)"] * 4095, "NOT(n4096, n4096)", outputs=[600]), "refused 2"),
    (drawn(inputs=25), "read 264"),
    (drawn(inputs=32), "read 334"),
    (drawn(inputs=33), "refused 4 at 32.0"),
    (drawn(inputs=4096), "refused 4 at 32.0"),
    (drawn(inputs=4097), "refused 2"),
    (drawn("AND(n0)", inputs=33), "refused 4 at 32.0"),
    # 13 is tested before them all
    (drawn(inputs=4097) + "x", "refused 13 at 52162"),
    (drawn("AND(n0)") + "x", "refused 13 at 34"),
    (drawn(outputs=[0, 0]) + "n1 = NOT(n0)", "refused 13 at 44"),
    # a board of gates alone: line 0 is no input
    (drawn("NOT(n0)", inputs=0), "refused 4 at 0.0"),
    (drawn("NOT(n0, n0)", inputs=0), "refused 4 at 0.0"),
    (drawn("AND(n0, n0)", "NOT(n0)", inputs=0), "refused 4 at 0.0"),
    (drawn("AND(n9)", inputs=0), "refused 4 at 0.0"),
    (drawn("BUFF(n65535)", inputs=0), "refused 4 at 0.0"),
    (drawn("XNOR(n0, n1, n2, n3)", inputs=0), "refused 4 at 0.0"),
    (drawn("TIE0()", inputs=0), "refused 4 at 0.0"),
    (drawn("TIE1()", inputs=0), "refused 4 at 0.0"),
    (drawn("TIE1()", "NOT(n0, n0)", inputs=0, outputs=[9]), "refused 4 at 0.0"),
    # boards with ties
    ("n0 = TIE0()\n", "refused 2"),
    ("n0 = TIE1()\n", "refused 2"),
    (drawn("TIE0()"), "read 34"),
    (drawn("TIE1()"), "read 34"),
    (drawn("TIE1()", outputs=[0, 1]), "read 36"),
    (drawn("TIE0()", "TIE1()", "AND(n0, n2)", outputs=[1, 2, 3]), "read 58"),
    (drawn(*["TIE1()"] * 4095, outputs=[4095]), "read 40974"),
    (drawn(*["TIE0()"] * 4096, outputs=[4095]), "refused 2"),
    (drawn("TIE0()", inputs=32), "read 344"),
    (drawn("TIE0()", inputs=33), "refused 4 at 32.0"),
    (drawn("TIE0()", "NOT(n2)"), "refused 4 at 2.2"),
    (drawn("TIE1()", "NOT(n1, n1)"), "refused 4 at 2.1"),
    (drawn("AND(n0, n2)", "TIE1()"), "refused 4 at 1.3"),
    (drawn("TIE1()", outputs=[2]), "refused 5 at 0"),
    (drawn("TIE1()", outputs=[1, 0]), "refused 5 at 1"),
    (drawn("TIE0()") + "x", "refused 13 at 33"),
    (drawn("TIE0()", inputs=0) + "x", "refused 13 at 23"),
    (drawn("TIE0(n0)", inputs=0), "refused 13 at 21"),
    # a pin count wrong for its kind, before a bad pin
    (drawn("BUFF(n0, n0)"), "refused 4 at 1.1"),
    (drawn("NOT(n0, n0)"), "refused 4 at 1.1"),
    (drawn("NOT(n9, n9, n9, n9)"), "refused 4 at 1.1"),
    (drawn("AND(n0)"), "refused 4 at 1.1"),
    (drawn("NAND(n0)"), "refused 4 at 1.1"),
    (drawn("OR(n0)"), "refused 4 at 1.1"),
    (drawn("NOR(n0)"), "refused 4 at 1.1"),
    (drawn("XOR(n0)"), "refused 4 at 1.1"),
    (drawn("XNOR(n65535)"), "refused 4 at 1.1"),
    # a pin not below its line, at its field
    (drawn("NOT(n1)"), "refused 4 at 1.2"),
    (drawn("AND(n0, n1)"), "refused 4 at 1.3"),
    (drawn("AND(n0, n0, n7, n9)"), "refused 4 at 1.4"),
    (drawn("AND(n0, n0, n0, n65535)"), "refused 4 at 1.5"),
    # the first bad record, and before any output
    (drawn("NOT(n0)", "OR(n0, n1, n2)", "NOT(n0, n0)", outputs=[9]), "refused 4 at 2.4"),
    (drawn("NOT(n0)", "NOT(n0, n0)", "OR(n9, n9)", outputs=[1, 1]), "refused 4 at 2.1"),
    # outputs in any order are of the form, and have to rise
    (drawn("NOT(n0)", outputs=[2]), "refused 5 at 0"),
    (drawn("NOT(n0)", outputs=[65535]), "refused 5 at 0"),
    (drawn("NOT(n0)", outputs=[1, 0]), "refused 5 at 1"),
    (drawn("NOT(n0)", outputs=[1, 1]), "refused 5 at 1"),
    (drawn("NOT(n0)", outputs=[0, 1, 65535]), "refused 5 at 2"),
    (drawn("NOT(n0)", outputs=[0, 65535, 1]), "refused 5 at 1"),
    (drawn("NOT(n0)", outputs=[0, 1, 0, 1]), "refused 5 at 2"),
    (drawn("NOT(n0)", outputs=[0, 1]), "read 36"),
    # the longest text that the command takes: 5,954 of 11 bytes and three of 14
    ("OUTPUT(n0)\n" * 5954 + "OUTPUT(n1000)\n" * 3, "refused 2"),
    ("OUTPUT(n0)\n" * 5954 + "OUTPUT(n1000)\n" * 2 + "OUTPUT(n1000)", "refused 13 at 65535"),
    ("OUTPUT(n0)\n" * 5954 + "OUTPUT(n1000)\n" * 3 + "O", "? too many bytes"),
]

T_TEXT = "INPUT(n0)\nOUTPUT(n2)\nn1 = NOT(n0)\nn2 = OR(n0, n1)\n"
H_TEXT = "INPUT(n0)\nINPUT(n1)\nOUTPUT(n2)\nOUTPUT(n3)\nn2 = NOT(n0)\nn3 = BUFF(n1)\n"
RAILS_TEXT = ("INPUT(n0)\nINPUT(n1)\nOUTPUT(n5)\nOUTPUT(n6)\nOUTPUT(n7)\nn2 = TIE0()\nn3 = TIE1()\nn4 = NOT(n0)\nn5 = AND(n0, n3)\n"
              "n6 = AND(n1, n4, n3)\nn7 = OR(n5, n6, n2)\n")
# one gate of each word that takes pins; lines 1 to 8 are of kinds 1 to 8, and their pins stand in no order
WORDS_TEXT = ("INPUT(n0)\nOUTPUT(n0)\nOUTPUT(n8)\nn1 = BUFF(n0)\nn2 = NOT(n1)\nn3 = AND(n2, n0)\nn4 = NAND(n3, n0, n3)\nn5 = OR(n4, n1, n2, n0)\n"
              "n6 = NOR(n5, n5)\nn7 = XOR(n0, n6, n1)\nn8 = XNOR(n7, n0, n6, n2)\n")
WORDS = image([record(INPUT), record(1, 0), record(2, 1), record(3, 2, 0), record(4, 3, 0, 3), record(5, 4, 1, 2, 0), record(6, 5, 5),
               record(7, 0, 6, 1), record(8, 7, 0, 6, 2)], [0, 8])


def held(data, beyond=0):
    """The target's answer where it holds these bytes, and so many 9s beyond them."""
    return f"target {(data + bytes([9]) * beyond).hex() or '-'}"


# the reader's target, beside board H: T's image is 44 bytes. 14 is tested last, and a refusal leaves the target alone
TARGET_OF_READ = [
    ("lend target 44", "lent"),
    (read(T_TEXT), "read 44"),
    ("target", held(T)),
    ("lend target 43", "lent"),
    (read(T_TEXT), "refused 14"),
    ("target", held(b"", 43)),
    ("lend target 50", "lent"),
    (read(T_TEXT), "read 44"),
    ("target", held(T, 6)),
    (read(T_TEXT[:-1]), "refused 13 at 49"),
    (read(""), "refused 2"),
    (read(H_TEXT), "refused 14"),
    ("target", held(T, 6)),
    (read(drawn()), "read 24"),
    ("target", held(image([record(INPUT)], [0]) + T[24:], 6)),
    ("lend target 116", "lent"),
    (read(WORDS_TEXT), "read 106"),
    ("target", held(WORDS, 10)),
    ("lend target 0", "lent"),
    ("target", "target -"),
    (read("INPUT(n1)\n"), "refused 13 at 7"),
    (read(T_TEXT + "x"), "refused 13 at 50"),
    (read(""), "refused 2"),
    (read(drawn("AND(n0)")), "refused 4 at 1.1"),
    (read(drawn(outputs=[0, 0])), "refused 5 at 1"),
    (read(T_TEXT), "refused 14"),
    ("target", "target -"),
    ("lend target 262144", "lent"),
    ("lend target 262145", "? too many"),
    ("lend target 18446744073709551615", "? too many"),
    (read(T_TEXT), "read 44"),
    ("target", held(T, 262100)),
    ("lend target 3", "lent"),
    ("image", "image " + make.H.hex()),
    ("load " + T.hex(), T_COUNTS),
    ("target", held(b"", 3)),
]

# the writer's target: T's drawing is 50 bytes
TARGET_OF_WRITE = [
    ("lend target 50", "lent"),
    ("write", "wrote 50"),
    ("target", held(T_TEXT.encode())),
    ("lend target 49", "lent"),
    ("write", "refused 14"),
    ("target", held(b"", 49)),
    ("lend target 0", "lent"),
    ("write", "refused 14"),
    ("target", "target -"),
    ("lend target 60", "lent"),
    ("write", "wrote 50"),
    ("target", held(T_TEXT.encode(), 10)),
    ("image", "image " + T.hex()),
    ("load " + make.H.hex(), "board 4 lines 2 inputs 2 outputs"),
    ("write", "refused 14"),
    ("target", held(T_TEXT.encode(), 10)),
    ("lend target 70", "lent"),
    ("write", "wrote 69"),
    ("target", held(H_TEXT.encode(), 1)),
    ("load " + WORDS.hex(), "board 9 lines 1 inputs 2 outputs"),
    ("lend target 187", "lent"),
    ("write", "wrote 186"),
    ("target", held(WORDS_TEXT.encode(), 1)),
]

# a note is not drawn, and so what was written gives the image without it
NOTED = image([record(INPUT), record(NOT, 0), record(OR, 0, 1)], [2], note=make.H)
ON_NOTED = [
    ("lend target 52", "lent"),
    ("write", "wrote 50"),
    ("target", held(T_TEXT.encode(), 2)),
    ("image", "image " + NOTED.hex()),
    (read(T_TEXT), "read 44"),
    ("target", held(T + T_TEXT.encode()[44:], 2)),
]

# images that the writer refuses as Check does
NOT_WRITTEN = [row for row in IMAGES if row[2].startswith("refused")]


def not_written(said):
    """What is asked of the writer on such an image: it says so before 14, and leaves what the reader has put into the target."""
    return [("lend target 0", "lent"), ("write", said), ("lend target 44", "lent"), (read(T_TEXT), "read 44"), ("write", said), ("target", held(T))]


# words of these commands that can't be read
BAD_WORDS = ["read", "read 0", "read 4g", "read 49 4e", "read  49", "write 1", "write -", "target 1", "target -", "lend target", "lend target -1",
             "lend target x", "lend target 1 1", "import", "export", "import a b", "export a b", "Read -", "WRITE"]

INPUTS_65537 = "".join(f"INPUT(n{i})\n" for i in range(65537))  # 906,408 bytes; the last is 14
GATES_50000 = drawn(*["NOT(n0)"] * 50000)  # 838,915 bytes
# texts of the form at the limit of what import takes: 12,923 of 11 bytes and one of 15 bring them to 1,048,576
LONGEST_TEXT = INPUTS_65537 + "OUTPUT(n0)\n" * 12923 + "OUTPUT(n65535)\n"
FILES = {
    "T.txt": T_TEXT,
    "H.txt": H_TEXT,
    "empty.txt": "",
    "off.txt": "INPUT(n1)\n",
    "bad.txt": drawn("NOT(n1)"),
    "65537.txt": INPUTS_65537 + "OUTPUT(n0)\n",
    "again.txt": INPUTS_65537 + "INPUT(n1)\n",
    "next.txt": INPUTS_65537 + "n65537 = NOT(n0)\n",
    "from0.txt": INPUTS_65537[:-14] + "n0 = NOT(n0)\n",
    "outputs.txt": drawn(outputs=[0] * 65537),
    "gates.txt": GATES_50000,
    "gates-cut.txt": GATES_50000[:-1],
    "lines.txt": drawn(*["NOT(n0)"] * 25537, inputs=40000),
    "longest.txt": LONGEST_TEXT,
    "cut.txt": LONGEST_TEXT[:-1],
    "longer.txt": LONGEST_TEXT + "\n",
    "kept.txt": "kept\n",
    "over.txt": "x" * 999,
    "rails.txt": RAILS_TEXT,
    "4096.txt": drawn(*buffers(4096), outputs=[4095]),
    "4097.txt": drawn(*buffers(4097), outputs=[4095]),
}
# what import and export do, in a folder with these files
ON_FILES = [
    ("lend target 3", "lent"),
    ("put entry 0 7", "lent"),
    ("put good 07", "lent"),
    ("import FOLDER/none.txt", "? cannot read"),
    ("import FOLDER", "? cannot read"),
    ("import FOLDER/longer.txt", "? cannot read"),
    ("import FOLDER/off.txt", "refused 13 at 7"),
    ("import FOLDER/empty.txt", "refused 2"),
    ("import FOLDER/bad.txt", "refused 4 at 1.2"),
    ("import FOLDER/65537.txt", "refused 2"),
    ("import FOLDER/next.txt", "refused 2"),
    ("import FOLDER/again.txt", "refused 13 at 906415"),
    ("import FOLDER/from0.txt", "refused 13 at 906395"),
    ("import FOLDER/outputs.txt", "refused 2"),
    ("import FOLDER/gates.txt", "refused 2"),
    ("import FOLDER/gates-cut.txt", "refused 13 at 838914"),
    ("import FOLDER/lines.txt", "refused 2"),
    ("import FOLDER/longest.txt", "refused 2"),
    ("import FOLDER/cut.txt", "refused 13 at 1048575"),
    ("image", "image " + T.hex()),
    ("entries", book("entries", (7, 1), (99, 5))),
    ("show good 0", "row 07"),
    ("import FOLDER/H.txt", "board 4 lines 2 inputs 2 outputs"),
    ("image", "image " + make.H.hex()),
    ("entries", book("entries", (99, 8))),
    ("pin entries", book("pins", (99, 32))),
    ("show good 0", "row 09090909"),
    ("show faulty 0", "row 09090909"),
    ("target", held(b"", 3)),
    ("export FOLDER/new.txt", "saved"),
    ("import FOLDER/T.txt", T_COUNTS),
    ("import FOLDER/new.txt", "board 4 lines 2 inputs 2 outputs"),
    ("export FOLDER/none/new.txt", "?"),
    ("export FOLDER", "?"),
    ("load " + NOTED.hex(), T_COUNTS),
    ("export FOLDER/over.txt", "saved"),
    ("image", "image " + NOTED.hex()),
    ("target", held(b"", 3)),
    ("load " + REFUSED.hex(), "refused 5 at 0"),
    ("export FOLDER/kept.txt", "refused 5 at 0"),
    ("export FOLDER/not.txt", "refused 5 at 0"),
    ("export FOLDER/none/new.txt", "refused 5 at 0"),
    ("import FOLDER/bad.txt", "refused 4 at 1.2"),
    ("image", "image " + REFUSED.hex()),
    (read(FILES["4096.txt"]), "? too many bytes"),
    ("import FOLDER/4097.txt", "refused 2"),
    ("import FOLDER/4096.txt", "board 4096 lines 1 inputs 1 outputs"),
    ("image", "image " + image(chain(4096), [4095]).hex()),
    ("export FOLDER/again-4096.txt", "saved"),
    ("import FOLDER/rails.txt", RAILS_COUNTS),
    ("image", "image " + RAILS.hex()),
    ("export FOLDER/again-rails.txt", "saved"),
]
# the files that are then in the folder and were not, or hold something else
LEFT = {"new.txt": H_TEXT, "over.txt": T_TEXT, "again-4096.txt": FILES["4096.txt"], "again-rails.txt": RAILS_TEXT}

# document 02, W6: bigger boards

# an alteration that touches nothing counts what was put into both books: every number is an entry, and the largest alone is none
ENTRIES = [
    ("put entry 0 4294967295", "lent"),
    ("put entry 1 4294967296", "lent"),
    ("put entry 2 18446744073709551614", "lent"),
    ("put entry 3 18446744073709551615", "lent"),
    ("put entry 4 18446744073709551616", "?"),
    ("put entry 6 18446744073709551615", "?"),
    ("put pin 0 4294967295", "lent"),
    ("put pin 1 18446744073709551615", "lent"),
    ("put pin 22 18446744073709551615", "lent"),
    ("put pin 23 18446744073709551614", "lent"),
    ("alter 2 05020000010000000000", "found 27 of 30"),
    ("entries", book("entries", (4294967295, 1), (4294967296, 1), (NONE - 1, 1), (NONE, 1), (99, 2))),
    ("pin entries", book("pins", (4294967295, 1), (NONE, 1), (99, 20), (NONE, 1), (NONE - 1, 1))),
    ("put entry 3 4294967295", "lent"),
    ("alter 2 05020000010000000000", "found 28 of 30"),
    ("put entry 0 000018446744073709551615", "lent"),
    ("alter 2 05020000010000000000", "found 27 of 30"),
]

# a chain of buffers, lines 1 to 4,095, behind one input: 1 shows every line and pin at 0, and 0 every one at 1
ON_LONG_CHAIN = [
    ("rows 1 4095/0", "filled"),
    ("show good 4094", "row 0101"),
    ("show faulty 4094", "row 0100"),
    ("show good 4095", "row 01"),
    ("show good 4096", "row -"),
    ("rows 1 4096/0", "refused 6"),
    ("rows 2 4095/0", "refused 8"),
    ("find 4095/0", "1"),
    ("find 4095.0/1", "0"),
    ("find 4095.1/0", "refused 12"),
    ("find 4096/0", "refused 6"),
    ("judge 1 0/0", "yes"),
    ("judge 1 512/1", "no"),
    ("five 1 1 0/0", "drives 1"),
    ("show good 4093", "row 030303"),
    ("refresh 4096 0", "refused 6"),
    ("put good " + "01" * 4094 + "0009", "lent"),
    ("refresh 4095 1", "filled"),
    ("show good 4093", "row 010000"),
    ("put good " + "01" * 4094 + "0201", "lent"),
    ("refresh 4095 1", "refused 11"),
    ("refresh 4094 1", "filled"),
    ("show good 4093", "row 010101"),
    ("lend rows 4095 4096", "lent"),
    ("rows 1 4095/0", "refused 9"),
    ("refresh 0 0", "refused 9"),
    ("five 1 1 0/0", "refused 9"),
    ("lend rows 4096 4097", "lent"),
    ("rows 1 4095/0", "refused 9"),
    ("refresh 0 0", "filled"),
    ("lend book 8191", "lent"),
    ("book", "refused 9"),
    ("alter 4095 0201fe0f000000000000", "refused 9"),
    ("lend book 8193", "lent"),
    ("book", "refused 9"),
    ("lend book 8192", "lent"),
    ("book", "found 8192 of 8192"),
    ("entries", book("entries", *[(1, 1), (0, 1)] * 4096)),
    ("lend pins 32767", "lent"),
    ("pin book", "refused 9"),
    ("lend pins 32769", "lent"),
    ("pin book", "refused 9"),
    ("alter 4095 0201fe0f000000000000", "refused 9"),
    ("lend pins 32768", "lent"),
    ("pin book", "found 8190 of 32768"),
    ("pin entries", book("pins", (NONE, 8), *[(1, 1), (0, 1), (NONE, 6)] * 4095)),
    ("alter 4096 0201fe0f000000000000", "refused 6"),
    ("alter 4095 0201ff0f000000000000", "refused 10"),  # not(4095), its own line
    ("alter 4095 0201fe0f000000000000", "found 16382 of 40960"),  # not(4094)
    ("entries", book("entries", *[(1, 1), (0, 1)] * 4095, (0, 1), (1, 1))),
]

# every buffer reads input 0, so that line 4,095 shares its output with that alone; the other inputs reach nothing
ON_LARGEST = [
    ("find 0/0", "1"),
    ("find 4095/1", "0"),
    ("find 4095.0/0", "1"),
    ("find 4096.0/0", "refused 6"),
    ("judge 4294967295 0/0", "yes"),
    ("judge 4294967294 0/0", "no"),
    ("judge 4294967296 0/0", "refused 8"),
    ("judge 4294967297 0/0", "refused 8"),
    ("judge 8589934591 0/0", "refused 8"),
    ("judge 18446744073709551615 0/0", "refused 8"),
    ("rows 2147483649 4032/0", "filled"),
    ("show good 0", "row 01" + "00" * 30 + "01" * 4065),
    ("show faulty 4030", "row 010100" + "01" * 63),
    ("five 4294967295 2147483649 0/0", "drives 64"),
    ("show good 0", "row 03" + "00" * 30 + "01" + "03" * 4064),
    ("five 2147483648 2147483648 0/0", "drives 0"),
    ("show good 30", "row 0201" + "02" * 4064),
    ("five 4294967296 0 0/0", "refused 8"),
    ("five 4294967295 4294967296 0/0", "refused 8"),
    ("five 2147483647 2147483648 0/0", "refused 8"),
    ("five 18446744073709551615 0 0/0", "refused 8"),
    ("refresh 0 4294967296", "refused 8"),
    ("put good " + "00" * 4096, "lent"),
    ("refresh 31 4294967295", "filled"),
    ("show good 30", "row 0001" + "00" * 4064),
    ("alter 4095 02010000000000000000", "found 40946 of 40960"),  # not(0)
    ("entries", book("entries", (1, 1), (0, 1), (99, 8188), (0, 1), (1, 1))),
    ("pin entries", book("pins", (NONE, 8), (99, 32752), (1, 1), (0, 1), (NONE, 6))),
]

# inputs 0, 8, 24 and 26 of 32 are the outputs: a bit of its own shows each at 0
OUT_OF_32 = image([record(INPUT)] * 32, [0, 8, 24, 26])
ON_OUT_OF_32 = [("find 0/0", "1"), ("find 8/0", "256"), ("find 24/0", "16777216"), ("find 26/0", "67108864"), ("find 26/1", "0")]

# the and of 32 inputs by fours: 8 gates on lines 32 to 39, 2 on 40 and 41, and line 42
ONES_OF_32 = image([record(INPUT)] * 32 + [record(AND, *range(4 * i, 4 * i + 4)) for i in range(10)] + [record(AND, 40, 41)], [42])
ONES_COUNTS = "board 43 lines 32 inputs 1 outputs"
ON_ONES_OF_32 = [
    ("judge 4294967295 42/0", "yes"),
    ("judge 4294967295 42.1/0", "yes"),
    ("judge 4294967294 0/1", "yes"),
    ("judge 2147483647 31/1", "yes"),
    ("judge 2147483647 42/0", "no"),
    ("judge 4294967294 42/0", "no"),
    ("find 42/1", "0"),
]

# document 02, W7: lines tied to a rail

# the tie-breaker: inputs 0 and 1, 2 always 0, 3 always 1, 4 not(0), 5 and(0,3), 6 and(1,4,3), 7 or(5,6,2); outputs 5, 6 and 7. So 5 is input 0, 6 is
# input 1 without input 0, and 7 is either
ON_RAILS = [
    ("find 2/0", "none"),
    ("find 2/1", "0"),
    ("find 3/0", "1"),
    ("find 3/1", "none"),
    ("find 5.1/0", "1"),
    ("find 5.1/1", "none"),
    ("find 6.2/0", "2"),
    ("find 7.2/0", "none"),
    ("find 7.2/1", "0"),
    ("book", "found 14 of 16"),
    ("entries", f"entries 1 0 2 0 {NONE} 0 1 {NONE} 2 3 1 0 2 0 1 0"),
    ("pin book", "found 15 of 64"),
    ("pin entries", book("pins", (NONE, 32), (3, 1), (2, 1), (NONE, 6), (1, 1), (0, 1), (1, 1), (NONE, 5), (2, 1), (0, 1), (2, 1), (3, 1), (2, 1),
                         (NONE, 3), (1, 1), (0, 1), (2, 1), (0, 1), (NONE, 1), (0, 1), (NONE, 2))),
    # no pin of a tie is there, tested after 7 and before 8
    ("find 2.0/0", "refused 12"),
    ("find 3.0/1", "refused 12"),
    ("find 2.1/1", "refused 12"),
    ("find 3.3/0", "refused 12"),
    ("find 2.4/0", "refused 12"),
    ("find 3.256/0", "refused 12"),
    ("find 2.18446744073709551615/1", "refused 12"),
    ("find 2.0/2", "refused 7"),
    ("find 8.0/0", "refused 6"),
    ("judge 0 2.0/1", "refused 12"),
    ("judge 4 3.0/0", "refused 12"),
    ("judge 4 3.0/2", "refused 7"),
    ("judge 4 3/0", "refused 8"),
    ("rows 4 2.0/1", "refused 12"),
    ("five 4 0 3.0/1", "refused 12"),
    ("judge 0 2/1", "yes"),
    ("judge 0 2/0", "no"),
    ("judge 3 2/1", "no"),
    ("judge 3 3/0", "yes"),
    ("judge 0 3/0", "no"),
    ("judge 3 3/1", "no"),
    ("rows 3 3/0", "filled"),
    ("show good 0", "row 0101000100010001"),
    ("show faulty 0", "row 0101000000000000"),
    ("rows 0 2/1", "filled"),
    ("show good 0", "row 0000000101000000"),
    ("show faulty 0", "row 0000010101000001"),
    ("rows 3 3/1", "filled"),
    ("show faulty 0", "row 0101000100010001"),
    # a tie is settled, and so is D or D-bar where it is struck, whatever is x
    ("five 0 0 2/0", "drives 0"),
    ("show good 0", "row 0202000102020202"),
    ("five 0 0 2/1", "drives 0"),
    ("show good 0", "row 0202040102020202"),
    ("five 0 0 3/1", "drives 0"),
    ("show good 0", "row 0202000102020202"),
    ("five 0 0 3/0", "drives 0"),
    ("show good 0", "row 0202000302020202"),
    ("five 1 1 3/0", "drives 2"),
    ("show good 0", "row 0102000300030003"),
    ("five 1 0 2/1", "drives 0"),
    ("show good 0", "row 0002040101000202"),
    ("five 3 0 2/1", "drives 1"),
    ("show good 0", "row 0000040101000004"),
    ("five 1 1 5.1/0", "drives 2"),
    ("show good 0", "row 0102000100030003"),
    ("five 1 1 5.1/1", "drives 0"),
    ("show good 0", "row 0102000100010001"),
    ("five 0 0 7.2/1", "drives 0"),
    ("show good 0", "row 0202000102020202"),
    # refreshed from a tie on, and from behind ties whose stored bytes are wrong and are used as they stand
    ("put good 0101050505050505", "lent"),
    ("refresh 2 0", "filled"),
    ("show good 0", "row 0101000100010001"),
    ("put good 0100010009090909", "lent"),
    ("refresh 4 0", "filled"),
    ("show good 0", "row 0100010000000001"),
    ("put good 0100020009090909", "lent"),
    ("refresh 3 0", "refused 11"),
    ("refresh 2 0", "filled"),
    ("show good 0", "row 0100000100010001"),
    # its drawing is 148 bytes, and its image 98
    ("lend target 148", "lent"),
    ("write", "wrote 148"),
    ("target", held(RAILS_TEXT.encode())),
    ("lend target 147", "lent"),
    ("write", "refused 14"),
    ("target", held(b"", 147)),
    (read(RAILS_TEXT), "read 98"),
    ("target", held(RAILS, 49)),
    ("lend target 97", "lent"),
    (read(RAILS_TEXT), "refused 14"),
    ("target", held(b"", 97)),
    ("lend target 98", "lent"),
    (read(RAILS_TEXT), "read 98"),
    ("target", held(RAILS)),
    (read(RAILS_TEXT[:-1]), "refused 13 at 147"),
    (read(RAILS_TEXT.replace("TIE1()", "TIE1(n0)")), "refused 13 at 75"),
]

# T's lines altered to ties and back. With a tie on line 2 nothing else reaches the output; with one on line 1 line 2 is input 0 or always 1
TIED_T = [
    ("alter 2 0a000000000000000000", "found 1 of 30"),
    ("entries", book("entries", (NONE, 4), (0, 1), (NONE, 1))),
    ("pin entries", book("pins", (NONE, 24))),
    ("image", "image " + changed(T, 20, record(TIE1)).hex()),
    ("find 2.0/0", "refused 12"),
    # the same tie, and then the other: line 2 alone is touched, its absent pins too
    ("put entry 0 77", "lent"),
    ("put entry 4 77", "lent"),
    ("put pin 8 77", "lent"),
    ("put pin 16 77", "lent"),
    ("alter 2 0a000000000000000000", "found 3 of 30"),
    ("entries", book("entries", (77, 1), (NONE, 3), (0, 1), (NONE, 1))),
    ("pin entries", book("pins", (NONE, 8), (77, 1), (NONE, 15))),
    ("alter 2 09000000000000000000", "found 3 of 30"),
    ("entries", book("entries", (77, 1), (NONE, 4), (0, 1))),
    # an or again, which joins lines 0 and 1 to the output
    ("alter 2 05020000010000000000", "found 5 of 30"),
    ("entries", book("entries", (NONE, 2), (0, 1), (NONE, 1), (0, 1), (NONE, 1))),
    ("pin entries", book("pins", (NONE, 9), (0, 1), (NONE, 6), (1, 1), (NONE, 1), (0, 1), (NONE, 5))),
    ("alter 1 09000000000000000000", "found 8 of 30"),
    ("entries", f"entries 1 0 {NONE} 0 1 0"),
    ("pin entries", book("pins", (NONE, 16), (1, 1), (0, 1), (NONE, 1), (0, 1), (NONE, 4))),
    ("alter 1 0a000000000000000000", "found 3 of 30"),
    ("entries", book("entries", (NONE, 2), (0, 1), (NONE, 1), (0, 1), (NONE, 1))),
    ("pin entries", book("pins", (NONE, 18), (0, 1), (NONE, 5))),
    # what may not stand in a tie's place, nor a tie elsewhere
    ("alter 1 00000000000000000000", "refused 10"),
    ("alter 1 02010100000000000000", "refused 10"),  # not(1), its own line
    ("alter 1 0b000000000000000000", "refused 10"),
    ("alter 1 ff000000000000000000", "refused 10"),
    ("alter 1 09010000000000000000", "refused 10"),
    ("alter 1 0a010000000000000000", "refused 10"),
    ("alter 2 0a020000010000000000", "refused 10"),
    ("alter 2 09030000010000000000", "refused 10"),
    ("alter 2 09040000010000000000", "refused 10"),
    ("alter 2 0aff0000000000000000", "refused 10"),
    ("alter 2 09000100000000000000", "refused 10"),
    ("alter 2 09000000010000000000", "refused 10"),
    ("alter 2 0a000000000001000000", "refused 10"),
    ("alter 2 0a000000000000000001", "refused 10"),
    ("alter 2 0b020000010000000000", "refused 10"),
    ("alter 0 09000000000000000000", "refused 10"),
    ("alter 0 0a000000000000000000", "refused 10"),
    ("alter 3 09000000000000000000", "refused 6"),
    ("image", "image " + changed(T, 10, record(TIE1)).hex()),
    ("alter 1 02010000000000000000", "found 5 of 30"),
    ("image", "image " + T.hex()),
    ("lend pins 23", "lent"),
    ("alter 2 09000000000000000000", "refused 9"),
    ("alter 2 09010000000000000000", "refused 9"),
    ("image", "image " + T.hex()),
]

# on board H line 3 shares its output with line 1 alone, and as a tie with nothing
TIED_H = [
    ("alter 3 0a000000000000000000", "found 21 of 40"),
    ("entries", book("entries", (99, 2), (NONE, 2), (99, 2), (0, 1), (NONE, 1))),
    ("pin entries", book("pins", (99, 8), (NONE, 8), (99, 8), (NONE, 8))),
    ("put entry 2 5", "lent"),
    ("put pin 8 5", "lent"),
    ("alter 3 09000000000000000000", "found 23 of 40"),
    ("entries", book("entries", (99, 2), (5, 1), (NONE, 1), (99, 2), (NONE, 1), (0, 1))),
    ("pin entries", book("pins", (99, 8), (5, 1), (NONE, 7), (99, 8), (NONE, 8))),
    ("alter 3 03020000010000000000", "found 20 of 40"),  # and(0,1)
    ("entries", "entries 1 0 3 1 99 99 3 0"),
    ("pin entries", book("pins", (NONE, 16), (99, 8), (3, 1), (2, 1), (3, 1), (1, 1), (NONE, 4))),
]

# no gate but ties, and every line an output
ALL_TIES = image([record(INPUT), record(TIE0), record(TIE1)], [0, 1, 2])
ON_ALL_TIES = [
    ("book", "found 4 of 6"),
    ("entries", f"entries 1 0 {NONE} 0 0 {NONE}"),
    ("pin book", "found 0 of 24"),
    ("pin entries", book("pins", (NONE, 24))),
    ("rows 1 1/1", "filled"),
    ("show good 0", "row 010001"),
    ("show faulty 0", "row 010101"),
    ("judge 1 2/0", "yes"),
    ("judge 1 2/1", "no"),
    ("five 0 0 1/1", "drives 1"),
    ("show good 0", "row 020401"),
    ("five 0 0 2/0", "drives 1"),
    ("show good 0", "row 020003"),
    ("five 0 0 2/1", "drives 0"),
    ("show good 0", "row 020001"),
    ("five 1 1 0/0", "drives 1"),
    ("show good 0", "row 030001"),
    ("alter 1 01010000000000000000", "found 7 of 30"),  # buffer(0)
    ("entries", f"entries 1 0 1 0 0 {NONE}"),
    ("pin entries", book("pins", (NONE, 8), (1, 1), (0, 1), (NONE, 14))),
]

# input 0, line 1 always 0 and line 2 always 1; then every kind with a leg tied to each, at the first or the second place, and with both
LEGS = image([record(INPUT), record(TIE0), record(TIE1), record(AND, 0, 1), record(AND, 2, 0), record(NAND, 1, 0), record(NAND, 0, 2), record(OR, 0, 2),
              record(OR, 1, 0), record(NOR, 2, 0), record(NOR, 0, 1), record(XOR, 0, 1), record(XNOR, 0, 2), record(BUFFER, 1), record(NOT, 1),
              record(BUFFER, 2), record(NOT, 2), record(AND, 0, 2, 1), record(OR, 0, 1, 2), record(XOR, 1, 2), record(XNOR, 1, 2)], [4, 6, 12, 19])
ON_LEGS = [
    ("five 0 0 0/0", "drives 0"),  # x beside each rail
    ("show good 0", "row 020001000201020102000202020001010000010100"),
    ("five 1 1 0/0", "drives 3"),  # D beside each rail
    ("show good 0", "row 030001000301040103000403030001010000010100"),
    ("five 0 0 2/0", "drives 1"),  # D on the high rail beside x
    ("show good 0", "row 020003000201020202020202020001030400020304"),
    ("five 0 0 1/1", "drives 1"),  # D-bar on the low rail beside x
    ("show good 0", "row 020401020202020102000202020403010002010304"),
    ("rows 1 2/0", "filled"),
    ("show good 0", "row 010001000101000101000001010001010000010100"),
    ("show faulty 0", "row 010000000001010101000001000001000100010001"),
]

# two ties behind 32 inputs. The first is an output; the last reaches none, so that altering it touches nothing. No pin is there to search for
TIED_32 = image([record(INPUT)] * 32 + [record(TIE0), record(TIE1)], [31, 32])
ON_TIED_32 = [
    ("find 32/1", "0"),
    ("find 32.0/1", "refused 12"),
    ("judge 4294967295 32/1", "yes"),
    ("judge 4294967295 32/0", "no"),
    ("judge 4294967296 32/1", "refused 8"),
    ("five 0 0 32/1", "drives 1"),
    ("show good 30", "row 02020401"),
    ("alter 33 09000000000000000000", "found 340 of 340"),
    ("entries", book("entries", (99, 68))),
    ("alter 33 01012000000000000000", "found 340 of 340"),  # buffer(32)
    ("find 33.0/2", "refused 7"),
    ("find 33.1/0", "refused 12"),
    ("alter 33 0a000000000000000000", "found 340 of 340"),
    ("pin entries", book("pins", (99, 272))),
    ("pin book", "found 0 of 272"),
    ("pin entries", book("pins", (NONE, 272))),
]

BEFORE_LOAD = [
    ("pin entries", "pins"),
    ("pin book", "refused 1"),
    ("find 0.0/0", "refused 1"),
    ("put pin 0 1", "?"),
    ("target", "target -"),
    ("write", "refused 1"),
    ("export FOLDER/not.txt", "refused 1"),
    (read(T_TEXT), "refused 14"),
]
# a board's name and image, what Check says of it, and what is asked of it
ASKED = [
    ("T", T, T_COUNTS, ON_T),
    ("S", make.S, S_COUNTS, ON_S),
    ("T", T, T_COUNTS, PINS_OF_T),
    ("T", T, T_COUNTS, LENT_TO_ALTER),
    ("T", T, T_COUNTS, PIN_TAKEN_AWAY),
    ("H", make.H, "board 4 lines 2 inputs 2 outputs", PINS_OF_H),
    ("a loose gate", LOOSE, "board 3 lines 2 inputs 1 outputs", PINS_OF_LOOSE),
    ("32 inputs", INPUTS, "board 32 lines 32 inputs 1 outputs", PINS_OF_INPUTS),
    ("one and", ONE_AND, "board 3 lines 2 inputs 1 outputs", PINS_OF_AND),
    ("a refused image", REFUSED, "refused 5 at 0", PINS_OF_REFUSED),
    ("64 side by side", SIDE_BY_SIDE, "board 66 lines 2 inputs 64 outputs", ON_SIDE_BY_SIDE),
    ("a chain of outputs", image(chain(64), range(64)), "board 64 lines 1 inputs 64 outputs", ON_CHAIN),
    ("D", D, "board 512 lines 2 inputs 64 outputs", ON_D),
    ("inputs as outputs", INPUTS_OUT, "board 4 lines 2 inputs 3 outputs", ON_INPUTS_OUT),
    ("outputs that feed", FEEDING, "board 4 lines 1 inputs 3 outputs", ON_FEEDING),
    ("exclusive-or of 3", ODD_OF_3, "board 5 lines 3 inputs 2 outputs", ON_ODD_OF_3),
    ("exclusive-or of 4", ODD_OF_4, "board 6 lines 4 inputs 2 outputs", ON_ODD_OF_4),
    ("exclusive-or as or", ODD_OR, "board 4 lines 2 inputs 1 outputs", ON_ODD_OR),
    ("T", T, T_COUNTS, TWICE),
    *ON_LAST,
    *ON_FIRST,
    ("H", make.H, "board 4 lines 2 inputs 2 outputs", TARGET_OF_READ),
    ("T", T, T_COUNTS, TARGET_OF_WRITE),
    ("T with a note", NOTED, T_COUNTS, ON_NOTED),
    ("T", T, T_COUNTS, ON_FILES),
    ("a loose gate", LOOSE, "board 3 lines 2 inputs 1 outputs", ENTRIES),
    ("a chain of 4,096", image(chain(4096), [4095]), "board 4096 lines 1 inputs 1 outputs", ON_LONG_CHAIN),
    ("the largest board", image(LARGEST, range(4032, 4096)), LARGEST_COUNTS, ON_LARGEST),
    ("32 inputs, some of them outputs", OUT_OF_32, "board 32 lines 32 inputs 4 outputs", ON_OUT_OF_32),
    ("all ones of 32", ONES_OF_32, ONES_COUNTS, ON_ONES_OF_32),
    ("the tie-breaker", RAILS, RAILS_COUNTS, ON_RAILS),
    ("T", T, T_COUNTS, TIED_T),
    ("H", make.H, "board 4 lines 2 inputs 2 outputs", TIED_H),
    ("ties alone", ALL_TIES, "board 3 lines 1 inputs 3 outputs", ON_ALL_TIES),
    ("tied legs", LEGS, "board 21 lines 1 inputs 4 outputs", ON_LEGS),
    ("ties behind 32 inputs", TIED_32, "board 34 lines 32 inputs 2 outputs", ON_TIED_32),
]
# searches among all patterns of 32 inputs
LONG = [
    ("the last of 32 alone", last_alone(32), "board 33 lines 32 inputs 1 outputs", [("find 31/0", "2147483648"), ("find 0/0", "none")]),
    ("all ones of 32", ONES_OF_32, ONES_COUNTS, [("find 42/0", "4294967295")]),
]


def drawings():
    """What is asked of drawings beside a board's own questions, as name, command and answer."""
    asked = [("a target with room enough", "lend target 41356", "lent")]
    asked += [(f"read {text!r}", read(text), f"refused 13 at {length}") for text, length in DEPARTS]
    asked += [(f"read {text[:80]!r}", read(text), said) for text, said in NAMED]
    for name, data, said in NOT_WRITTEN:
        asked.append((name, f"load {data.hex() or '-'}", said))
        asked += [(f"{name}: {command[:80]}", command, answer) for command, answer in not_written(said)]
    return asked + [(f"no command: {line}", line, "?") for line in BAD_WORDS]


def everything(folder, boards):
    """All that is asked, in turn, as name, command and answer; of these boards among it."""
    asked = [(f"before load: {command}", command, said) for command, said in BEFORE_LOAD]
    asked += [(name, f"load {data.hex() or '-'}", said) for name, data, said in IMAGES]
    for board, data, counts, questions in boards:
        asked.append((board, f"load {data.hex()}", counts))
        asked += [(f"{board}: {command[:80]}", command, said) for command, said in questions]
    return [(name, command.replace("FOLDER", folder), said) for name, command, said in asked + drawings()]


def is_right(said, answer):
    """Whether an answer is the one that is wanted; '?' stands for any reason."""
    return answer == said or said == "?" and answer.startswith("? ")


def ask(product, folder, boards):
    """Asks everything in one run, and says what was answered otherwise, and which files are not what they should be then."""
    for name, text in FILES.items():
        Path(folder, name).write_bytes(text.encode())
    asked = everything(folder, boards)
    script = "".join(command + "\n" for _, command, _ in asked)
    written = subprocess.run(product, input=script, stdout=subprocess.PIPE, text=True, check=True, timeout=600).stdout
    answers = written.split("\n")[:-1]
    counted.count("one answer a command", len(answers) == len(asked), f"{len(answers)} for {len(asked)}")
    for (name, _, said), answer in zip(asked, answers):
        counted.count(name, is_right(said, answer), f"expected {said[:200]!r}, found {answer[:200]!r}")
    owed, left = FILES | LEFT, {path.name: path.read_bytes().decode("latin-1") for path in Path(folder).iterdir()}
    for name in sorted(owed | left):
        counted.count(f"file {name}", left.get(name) == owed.get(name), f"holds {left.get(name, 'nothing')[:80]!r}")


def main():
    """Everything, of the product or of another program."""
    words = argparse.ArgumentParser(description=__doc__, formatter_class=argparse.RawDescriptionHelpFormatter)
    words.add_argument("--long", action="store_true", help="search among all patterns of 32 inputs too")
    words.add_argument("--product", nargs="+", default=[programs.LAUNCHER], help="another program to ask")
    given = words.parse_args()
    product = given.product
    if product[0] == programs.LAUNCHER:
        programs.build("bench")
    with tempfile.TemporaryDirectory() as folder:
        ask(product, folder, ASKED + LONG * given.long)
    counted.end()


if __name__ == "__main__":
    main()
