"""Drawings for the comparison: of boards good and bad, texts that depart from the form, and the files of drawings that scripts import."""
import functools
import re

import shapes
from shapes import make

WORDS = ("BUFF", "NOT", "AND", "NAND", "OR", "NOR", "XOR", "XNOR", "TIE0", "TIE1")
# what an input's number, that of an output or a pin, a gate word and its brackets look like in a drawing
OWN, NUMBER = rb"(?<=INPUT\(n)\d+", rb"((?<=TPUT\(n)|(?<=NOT\(n)|(?<=[FDR]\(n)|(?<=, n))\d+"
WORD, BRACKETS, GATE = rb"(?<= = )[A-Z]+[01]?", rb"(?<=[A-Z01])\(.*\)", rb"(?<= = ).*\n"
# what stands behind = in a tie's statement, or nearly
NEAR_TIES = (
    b"TIE0()\n", b"TIE1()\n", b"T", b"TI", b"TIE", b"TIE0", b"TIE1", b"TIE0(", b"TIE1(", b"TIE0()", b"TIE1()", b"TIE0(n", b"TIE1(n", b"TIE0(n0)\n",
    b"TIE1(n0)\n", b"TIE0(n0, n0)\n", b"TIE1(0)\n", b"TIE0( )\n", b"TIE1(,)\n", b"TIE0 ()\n", b"TIE1() \n", b"TIE0()\r\n", b"TIE1())\n", b"TIE0)\n",
    b"TIE0\n", b"TIE()\n", b"TIE2()\n", b"TIE9()\n", b"TIE00()\n", b"TIE01()\n", b"TIE10()\n", b"TIE11()\n", b"TIE 0()\n", b"TIEO()\n", b"TIED()\n",
    b"TIE_0()\n", b"TI0()\n", b"TIX()\n", b"TIR()\n", b"TO()\n", b"T0()\n", b"TX()\n", b"tie0()\n", b"Tie1()\n", b"tIE0()\n", b"NTIE0()\n",
    b"0()\n", b"()\n", b"TIE0[]\n", b"TIE1{}\n", b"TIE0()TIE1()\n", b"TIE0()\n\n", b"AND()\n", b"NOT()\n", b"XNOR()\n", b"BUFF()\n", b"OR(",
    b"INPUT()\n", b"TIE0(n0", b"TIE1(n0,",
)
# what a place of a drawing looks like, and what it must not be, or may only just be
SPOILS = (
    *((rb" = ", other) for other in (b"= ", b" =", b"=", b"  = ", b" =  ", b" == ", b"\t=\t", b" ", b" := ")),
    *((rb", ", other) for other in (b",", b",  ", b" , ", b" ", b", , ", b",\n", b"; ", b",\t")),
    *((rb"\n", other) for other in (b"\r\n", b" \n", b"\n\n", b"", b"\n ", b";\n", b"\r", b"\0\n", b" # n\n", b"\n# n\n", b"\t\n")),
    *((rb"\n\Z", other) for other in (b"", b" ", b"\n ", b"\n\n", b"\n\0", b"\r\n")),
    *((rb"\(", other) for other in (b"((", b" (", b"( ", b"[", b"", b"(\n")),
    *((rb"\)", other) for other in (b"))", b" )", b"", b"]", b",)", b", )", b"\n")),
    *((rb"n(?=\d)", other) for other in (b"N", b"", b"nn", b"n0", b"n00", b"n ", b"n-", b"n+", b"m", b"n0x", b"x1")),
    *((rb"\d+", other) for other in (b"", b"65535", b"65536", b"00", b"1a", b"1 ")),
    *((OWN, other) for other in (b"00", b"01", b"0 ", b"1", b"10", b"65536", b"")),
    *((NUMBER, other) for other in (b"", b"0", b"65535", b"65535", b"65536", b"65536", b"65540", b"66000", b"70000", b"99999", b"100000",
                                    b"655350", b"131072", b"4294967296", b"18446744073709551616", b"065535", b"00", b"01", b"6.5")),
    *((WORD, other) for other in (b"", b"BUF", b"BUFFER", b"NO", b"NOTE", b"AN", b"ANDY", b"NA", b"NANDNAND", b"O", b"ORR", b"NORR", b"X", b"XN",
                                  b"XAND", b"EXOR", b"TIE0", b"TIE1", b"TIE", b"TIE2", b"TIED", b"TI", b"T", b"tie0", b"TIE00", b"TIE10",
                                  b"and", b"Not", b"buff", b"INPUT", b"OUTPUT", b"n0", b"AND NOT")),
    *((BRACKETS, other) for other in (b"()", b"", b"(n0)", b"(n0, n0)", b"(n0, n0, n0, n0, n0)", b"(n0, n0, n0, n0, n0, n0)", b"(n0, n0, n0, n0,",
                                      b"(n0, n1, n0, n1)", b"(n0, n0, n0, n65535)", b"(n0, n0, n0, n65536)", b"(n0,, n0)", b"( )", b"(n0, )")),
    *((GATE, other) for other in NEAR_TIES),
    *((rb"INPUT", other) for other in (b"input", b"Input", b"INPUTS", b"IN", b"INOUT", b"OUTPUT", b" INPUT", b"I", b"\xefINPUT")),
    *((rb"OUTPUT", other) for other in (b"output", b"OUT", b"OUTPUTS", b"INPUT", b"OUTPUT ", b"O", b"OUTRUN", b"")),
)
SIGNS = b"INPUTOBFADXREn0123456789(), =\n\r\t\0\xff"
TOKENS = (b"INPUT(n", b"OUTPUT(n", b"n", b"0", b"1", b"9", b"65", b"535", b")\n", b")", b"(", b", ", b" = ", b" ", b"\n", b"AND(n0", b"NOT(n0)\n",
          b"X", b"NOR(n1, n0)\n", b"n0 = ", b"n1 = ", b"OUTPUT(n0)\n", b"INPUT(n0)\n", b"INPUT(n1)\n", b"N", b"O", b"B",
          b"TIE0()\n", b"TIE1()\n", b"TIE", b"TIE1(", b"T", b"n1 = TIE0()\n", b"()\n")


def gate(line, kind, pins):
    """A gate's statement."""
    return f"n{line} = {WORDS[kind - 1]}({', '.join(f'n{pin}' for pin in pins)})\n"


def statements(board):
    """The statements of a board's drawing, good or bad."""
    inputs = [f"INPUT(n{line})\n" for line in range(board.inputs)]
    outputs = [f"OUTPUT(n{output})\n" for output in board.outputs]
    return inputs + outputs + [gate(line, *board.records[line]) for line in range(board.inputs, board.lines)]


def drawing(board):
    """A board's drawing."""
    return "".join(statements(board)).encode()


def any_board(rng):
    """A board of any size for a drawing, most of them small."""
    sizes = (shapes.small,) * 6 + (shapes.middle,) * 4 + (shapes.wide,) * 2 + (shapes.strands, shapes.large, shapes.large)
    return rng.choice(sizes)(rng)


def tiny(rng):
    """The drawing of a board of two to eight lines and up to two outputs; a number in it may be as large as one can be."""
    board = rng.choice((shapes.mixed, shapes.mixed, shapes.tied))(rng, rng.randint(1, 2), rng.randint(1, 3))
    board.outputs = board.outputs[:2]
    return spoilt(rng, drawing(board), NUMBER, b"65535") if rng.random() < 0.3 else drawing(board)


# texts that depart from the form

def spoilt(rng, text, place, other):
    """The text with other bytes at one of the places that look so, or behind it where none does."""
    found = [match.span() for match in re.finditer(place, text)] or [(len(text), len(text))]
    start, end = rng.choice(found)
    return text[:start] + other + text[end:]


def rearranged(rng, parts):
    """A drawing with two statements changed over, one twice, left out or moved, or with its sections in another order."""
    a, b = rng.randrange(len(parts)), rng.randrange(len(parts))
    swapped = [parts[b] if i == a else parts[a] if i == b else part for i, part in enumerate(parts)]
    without = parts[:a] + parts[a + 1:]
    moved = without[:b] + [parts[a]] + without[b:]
    order = rng.choice((("n", "I", "O"), ("I", "n", "O"), ("O", "I", "n"), ("n", "O", "I"), ("O", "n", "I")))
    sections = [part for first in order for part in parts if part.startswith(first)]
    return "".join(rng.choice((swapped, parts[:a + 1] + parts[a:], without, moved, sections))).encode()


def changed(rng, text, at):
    """The text with the byte at a place left out, doubled or changed, or with another byte before it."""
    before, byte, behind = text[:at], text[at:at + 1], text[at + 1:]
    other = bytes([rng.choice(SIGNS)])
    flipped = bytes([text[at] ^ 1 << rng.randrange(8)])
    return rng.choice((before + behind, before + byte + byte + behind, before + other + byte + behind, before + other + behind,
                       before + flipped + behind))


def random_text(rng):
    """Random bytes, or pieces of statements in any order, at times behind a good beginning."""
    start = rng.choice((b"", tiny(rng), tiny(rng)[:rng.randrange(40)]))
    if rng.random() < 0.2:
        return start + rng.randbytes(rng.randrange(30))
    return start + b"".join(rng.choice(TOKENS) for _ in range(rng.randrange(12)))


# boards named that break document 01's rules

def no_lines(_rng, board):
    """Refusal 2: no line at all, only outputs, or nothing."""
    return shapes.Board([], board.outputs if board.lines % 2 else [])


def outputs_miscounted(rng, board):
    """Refusal 2: no output, or 65 and more."""
    return shapes.Board(board.records, rng.choice(([], [0] * 65, range(66), [9] * 257, range(65))))


def too_many_lines(rng, board):
    """Refusal 2: 4,097 lines and more, of gates and of inputs."""
    few, more = rng.randint(1, 3), shapes.MOST_LINES + rng.choice((1, 1, 256))
    gates = [rng.choice(((make.NOT, (0,)), (make.TIE1, ())))] * (shapes.MOST_LINES + 1 - few)
    return rng.choice((shapes.Board([shapes.INPUT] * few + gates, board.outputs), shapes.Board([shapes.INPUT] * more, board.outputs)))


def too_many_inputs(rng, _board):
    """Refusal 4, field 0: a 33rd input."""
    inputs = shapes.MOST_INPUTS + rng.choice((1, 1, 2, 8))
    return shapes.Board([shapes.INPUT] * inputs + [(make.AND, (0, 31))] * rng.randrange(2), [32])


def pins_miscounted(rng, board):
    """Refusal 4, field 1: too many pins or too few for the word, at a gate's line; at line 0 it is field 0."""
    line, kind = rng.choice((board.inputs, board.lines - 1)), rng.randrange(1, 9)
    pins = tuple(rng.randrange(max(line, 1)) for _ in range(rng.randrange(2, 5) if kind < make.AND else 1))
    return shapes.Board(board.records, board.outputs).altered(line, (kind, pins)) if rng.random() < 0.8 else shapes.Board([(kind, pins)], [0])


def gate_at_0(rng, board):
    """Refusal 4, field 0: a gate or a tie at line 0, its own pins good or bad, and any gates behind it."""
    kind = rng.choice((*shapes.PINNED, *shapes.TIES * 3))
    pins = () if kind in shapes.TIES else tuple(rng.choice((0, 1, 65535)) for _ in range(rng.randint(1, 4)))
    return shapes.Board([(kind, pins), *board.records[board.inputs:]], board.outputs)


def pin_too_high(rng, board):
    """Refusal 4, fields 2 to 5: a pin not below its own line."""
    line, kind = rng.randrange(board.inputs, board.lines + 1), rng.randrange(make.AND, make.XNOR + 1)
    pins = [rng.randrange(line) for _ in range(rng.choice((2, 3, 4, 4, 4)))]
    at, too_high = rng.randrange(len(pins)), (line, line + 1, shapes.MOST_LINES - 1, shapes.MOST_LINES, 65535, line + 256)
    for pin in range(at, len(pins)):
        pins[pin] = rng.choice(too_high) if pin == at or rng.random() < 0.2 else pins[pin]
    return shapes.Board([*board.records[:line], (kind, tuple(pins)), *board.records[line + 1:]], board.outputs)


def outputs_wrong(rng, board):
    """Refusal 5: outputs that do not rise, or that are no lines."""
    return shapes.board_of(shapes.bad_outputs(rng, board))


def several_wrong(rng, board):
    """A bad record or two, and outputs that are no lines."""
    worse = shapes.Board(board.records, [output + board.lines for output in board.outputs])
    return rng.choice((pins_miscounted, pin_too_high))(rng, pin_too_high(rng, worse))


RULES = (no_lines, outputs_miscounted, too_many_lines, too_many_inputs, gate_at_0, pins_miscounted, pin_too_high, pin_too_high, outputs_wrong,
         several_wrong)
FEW_RULES = (no_lines, outputs_miscounted, gate_at_0, pins_miscounted, pin_too_high, outputs_wrong)


# files of drawings

def exactly(length):
    """A text of the form, outputs alone, of so many bytes."""
    tens = length % 11
    return b"OUTPUT(n10)\n" * tens + b"OUTPUT(n0)\n" * ((length - 12 * tens) // 11)


def many(inputs, gates):
    """A text of so many inputs, one output and so many gates."""
    text = [f"INPUT(n{line})\n" for line in range(inputs)] + ["OUTPUT(n0)\n"]
    return "".join(text + [f"n{line} = NOT(n0)\n" for line in range(inputs, inputs + gates)]).encode()


def tied(ties):
    """A text of one input, two outputs and so many ties, high and low in turn."""
    return "".join(["INPUT(n0)\n", "OUTPUT(n0)\n", f"OUTPUT(n{ties})\n"] + [f"n{line} = TIE{line % 2}()\n" for line in range(1, ties + 1)]).encode()


def longest():
    """The longest drawing there is: of the most lines and 64 outputs, with four pins a gate."""
    lines = shapes.MOST_LINES
    records = [shapes.INPUT] * 4 + [(make.XNOR, (line - 1, line - 2, line - 3, line - 4)) for line in range(4, lines)]
    return drawing(shapes.Board(records, range(lines - 64, lines)))


@functools.lru_cache(maxsize=1)
def files():
    """The files of drawings that scripts import: a small one, and large ones up to 1,048,576 bytes and over."""
    most = 1_048_576
    return {"board.txt": drawing(shapes.board_of(make.S)), "longest.txt": longest(), "one-more.txt": many(1, shapes.MOST_LINES),
            "inputs.txt": many(65_537, 0), "lines.txt": many(60_000, 5_537),
            "outputs.txt": b"INPUT(n0)\n" + b"OUTPUT(n0)\n" * 65_537, "most.txt": exactly(most), "late.txt": exactly(most)[:-1] + b"\r",
            "ties.txt": tied(shapes.MOST_LINES - 1), "garbage.txt": b"INPUT(n0)\nOUTPUT(n0)\n" + bytes(range(256)) * 4_000, "over.txt": exactly(most + 1)}


LARGE = ("longest.txt", "one-more.txt", "ties.txt", "inputs.txt", "lines.txt", "outputs.txt", "most.txt", "late.txt", "garbage.txt", "over.txt")
# of as many bytes as import takes, and one more
LONGEST = ("most.txt", "over.txt")
