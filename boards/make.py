#!/usr/bin/env python3
"""Makes the sample images and their drawings beside this file: boards S, T and H of document 01, one with lines tied to a rail, and an auction hall's.

    boards/make.py          writes boards/S.img, T.img, H.img, rails.img and hall.img, and boards/S.txt, T.txt, H.txt, rails.txt and hall.txt
    boards/make.py --check  says whether those files, and the images on the bench sheet, are what this script makes
"""
import re
import struct
import sys
from pathlib import Path

HERE = Path(__file__).resolve().parent
sys.path.insert(0, str(HERE))
from hall import hall  # noqa: E402
from parts import AND, BUFFER, INPUT, NAND, NOR, NOT, OR, TIE0, TIE1, XNOR, XOR  # noqa: E402, F401

MARK = bytes.fromhex("42524431")
# a gate's word in a drawing, by its kind
WORDS = ["", "BUFF", "NOT", "AND", "NAND", "OR", "NOR", "XOR", "XNOR", "TIE0", "TIE1"]


def record(kind, *pins):
    """The ten bytes of a line."""
    return struct.pack("<BB4H", kind, len(pins), *(list(pins) + [0] * 4)[:4])


def image(records, outputs, note=b""):
    """The whole image of some records and output lines."""
    distance = 12 + 2 * len(outputs) + 10 * len(records)
    trailer = struct.pack("<HHI", len(records), len(outputs), distance) + MARK
    return note + b"".join(records) + b"".join(struct.pack("<H", o) for o in outputs) + trailer


def drawing(img):
    """The drawing of a good image: its inputs, its outputs and its gates, a statement a line."""
    lines, _, distance = struct.unpack("<HHI", img[-12:-4])
    whole = img[-distance:]
    records = list(struct.iter_unpack("<BB4H", whole[:10 * lines]))
    statements = [f"INPUT(n{line})" for line, record in enumerate(records) if record[0] == INPUT]
    statements += [f"OUTPUT(n{output})" for output, in struct.iter_unpack("<H", whole[10 * lines:-12])]
    statements += [f"n{line} = {WORDS[kind]}({', '.join(f'n{pin}' for pin in pins[:count])})"
                   for line, (kind, count, *pins) in enumerate(records) if kind != INPUT]
    return "".join(statement + "\n" for statement in statements).encode()


def changed(img, at, new):
    """The image with other bytes at a place, which may count from its end."""
    at %= len(img)
    return img[:at] + new + img[at + len(new):]


S = image(
    [record(INPUT)] * 4
    + [record(NOR, *p) for p in ((1, 2), (4, 0), (4, 3), (0, 2), (7, 1), (1, 3), (9, 2), (5, 6, 8, 10))],
    [11],
)
T = image([record(INPUT), record(NOT, 0), record(OR, 0, 1)], [2])
H = image([record(INPUT), record(INPUT), record(NOT, 0), record(BUFFER, 1)], [2, 3])
# two bidders' buttons, 0 and 1, and a tie-breaker of chips with a leg to spare: line 5 says that the first wins, 6 that the second does, who has to press
# alone, and 7 that one of them does. The spare legs of the ands are tied high, by line 3, and that of the or low, by line 2
RAILS = image(
    [record(INPUT)] * 2 + [record(TIE0), record(TIE1), record(NOT, 0), record(AND, 0, 3), record(AND, 1, 4, 3), record(OR, 5, 6, 2)],
    [5, 6, 7],
)
HALL_RECORDS, HALL_OUTPUTS = hall()
HALL = image([record(kind, *pins) for kind, pins in HALL_RECORDS], HALL_OUTPUTS)

# the images as the bench sheet writes them out
SHEET = HERE.parent / "crates/sheet/specs/Boards.antt"


def on_the_sheet(name):
    """The bytes that the sheet has for a board: the quoted texts of its definition, two digits a byte."""
    definition = re.search(rf"^{name} =(.*?)\n\n", SHEET.read_text(), re.M | re.S).group(1)
    return bytes.fromhex("".join(re.findall(r'"([^"]*)"', definition)).replace("/", " "))


ON_THE_SHEET = {"S": S, "T": T, "H": H}
SAMPLES = ON_THE_SHEET | {"rails": RAILS, "hall": HALL}
FILES = {HERE / f"{name}.img": data for name, data in SAMPLES.items()} | {HERE / f"{name}.txt": drawing(data) for name, data in SAMPLES.items()}

if __name__ == "__main__":
    if sys.argv[1:] == ["--check"]:
        stale = [str(p) for p, data in FILES.items() if not p.exists() or p.read_bytes() != data]
        stale += [f"{SHEET}: {name}" for name, data in ON_THE_SHEET.items() if on_the_sheet(name) != data]
        print("not what boards/make.py makes: " + ", ".join(stale) if stale else "boards: as made")
        sys.exit(1 if stale else 0)
    for path, data in FILES.items():
        path.write_bytes(data)
