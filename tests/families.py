#!/usr/bin/env python3
"""The boards on which the books are timed: families of circuits at several sizes, each always the same.

    tests/families.py              names every board with its counts
    tests/families.py NAME         writes the image of the board with that name, as '8 inputs: adder', on standard output
"""
import random
import sys

from shapes import INPUT, MOST_INPUTS, MOST_LINES, Board, make

sys.path.insert(0, str(make.HERE))
import hall  # noqa: E402
import parts  # noqa: E402
from parts import AND, NAND, NOR, NOT, OR, TIE0, TIE1, XNOR, XOR, decoded, greater, majority  # noqa: E402


class Drawing(parts.Drawing):
    """A board in the making that may hold copies of others."""

    def copied(self, board):
        """The gates of a board once more, on this drawing's own inputs; gives the outputs' lines."""
        places = list(self.inputs)
        for kind, pins in board.records[board.inputs:]:
            places.append(self.gate(kind, *(places[pin] for pin in pins)))
        return [places[output] for output in board.outputs]

    def board(self, outputs):
        """The board with these output lines."""
        return Board(self.records, sorted(set(outputs)))


# adders and multipliers

def xor_of_nands(d, a, b):
    """Exclusive-or of two lines by four nands; gives also the first nand."""
    n = d.gate(NAND, a, b)
    return d.gate(NAND, d.gate(NAND, a, n), d.gate(NAND, b, n)), n


def nand_sum(d, a, b, carry):
    """Sum and carry of three lines by nine nands."""
    half, n = xor_of_nands(d, a, b)
    total, m = xor_of_nands(d, half, carry)
    return total, d.gate(NAND, n, m)


def full_sum(d, a, b, carry):
    """Sum and carry of three lines by five gates."""
    half = d.gate(XOR, a, b)
    return d.gate(XOR, half, carry), d.gate(OR, d.gate(AND, a, b), d.gate(AND, half, carry))


def half_sum(d, a, b):
    """Sum and carry of two lines."""
    return d.gate(XOR, a, b), d.gate(AND, a, b)


def rippled(d, a, b, first, step):
    """Sum lines of two numbers and the last carry: the lowest place by `first`, then each place by `step`."""
    total, carry = first(d, a[0], b[0])
    totals = [total]
    for left, right in zip(a[1:], b[1:]):
        total, carry = step(d, left, right, carry)
        totals.append(total)
    return totals + [carry]


def adder(inputs):
    """Two numbers, their sum and their difference, by nands."""
    d = Drawing(inputs)
    a, b = d.inputs[:inputs // 2], d.inputs[inputs // 2:]
    total = rippled(d, a, b, half_sum, nand_sum)
    opposite = [d.gate(NOT, line) for line in b]
    with_one = lambda d, left, right: (d.gate(XNOR, left, right), d.gate(OR, left, right))
    return d.board(total + rippled(d, a, opposite, with_one, nand_sum))


def plain_adder(inputs):
    """Two numbers and their sum."""
    d = Drawing(inputs)
    return d.board(rippled(d, d.inputs[:inputs // 2], d.inputs[inputs // 2:], half_sum, full_sum))


def multiplier(inputs):
    """Two numbers and their product, row by row; the second number is the shorter one where the board would have too many lines."""
    short = {20: 7, 24: 5}.get(inputs, inputs // 2)
    d = Drawing(inputs)
    a, b = d.inputs[short:], d.inputs[:short]
    row, product = [d.gate(AND, line, b[0]) for line in a], []
    for factor in b[1:]:
        product.append(row[0])
        partial = [d.gate(AND, line, factor) for line in a]
        row = added(d, row[1:], partial)
    return d.board(product + row)


def added(d, row, partial):
    """A row and a partial product, which may be one place longer, added to a row of one place more."""
    total = rippled(d, row, partial[:len(row)], half_sum, full_sum)
    if len(row) < len(partial):
        total[-1:] = half_sum(d, partial[-1], total[-1])
    return total


# multiplexers and arbiters

def selected(inputs):
    """How many of so many inputs select among the others."""
    return next(n for n in range(2, 6) if inputs - n <= 1 << n)


def multiplexer(inputs):
    """Data turned round by the number on the select lines: a multiplexer of all data for each output."""
    d = Drawing(inputs)
    selects = selected(inputs)
    data = d.inputs[selects:]
    chosen = decoded(d, d.inputs[:selects], len(data))
    turned = lambda out: [d.gate(AND, pick, data[(out + by) % len(data)]) for by, pick in enumerate(chosen)]
    return d.board([d.all_of(OR, turned(out)) for out in range(len(data))])


def picker(inputs):
    """One multiplexer: the data line that the select lines name."""
    d = Drawing(inputs)
    selects = selected(inputs)
    data = d.inputs[selects:]
    chosen = decoded(d, d.inputs[:selects], len(data))
    return d.board([d.all_of(OR, [d.gate(AND, *pair) for pair in zip(chosen, data)])])


def first_of(d, bidders):
    """For each bidder whether it is the first that bids, and whether any does."""
    taken, wins = bidders[0], [bidders[0]]
    for bidder in bidders[1:]:
        wins.append(d.gate(AND, bidder, d.gate(NOT, taken)))
        taken = d.gate(OR, taken, bidder)
    return wins, taken


def round_robin(inputs):
    """Who of the bidders wins: the first that bids from the one that the pointer names on, and round again from the lowest."""
    d = Drawing(inputs)
    selects = selected(inputs)
    bidders = d.inputs[selects:]
    pointed = decoded(d, d.inputs[:selects], len(bidders))
    open_from = [pointed[0]]
    for line in pointed[1:]:
        open_from.append(d.gate(OR, open_from[-1], line))
    high, some = first_of(d, [d.gate(AND, *pair) for pair in zip(bidders, open_from)])
    low, _ = first_of(d, bidders)
    none = d.gate(NOT, some)
    return d.board([d.gate(OR, up, d.gate(AND, down, none)) for up, down in zip(high, low)])


def tie_arbiter(inputs):
    """Who of four bidders has the highest bid: on a tie the lowest of them wins."""
    width, d = inputs // 4, Drawing(inputs)
    bids = [d.inputs[i:i + width] for i in range(0, inputs, width)]
    above = {(i, j): greater(d, bids[j], bids[i]) for j in range(len(bids)) for i in range(j)}
    beaten = {pair: d.gate(NOT, line) for pair, line in above.items()}
    wins = lambda k: [beaten[k, j] for j in range(k + 1, len(bids))] + [above[i, k] for i in range(k)]
    return d.board([d.all_of(AND, wins(k)) for k in range(len(bids))])


# parity

def xor_of_one(d, a, b):
    """Exclusive-or of two lines by one gate, in the form of the one by nands."""
    return d.gate(XOR, a, b), None


def parity(inputs, xor=xor_of_nands):
    """The parities of an error-correcting code: of all lines, and for each place of their numbers of those that have a 1 there."""
    d = Drawing(inputs)
    groups = [d.inputs] + [[i for i in d.inputs if i + 1 >> bit & 1] for bit in range(inputs.bit_length())]
    outputs = []
    for group in groups:
        odd = group[0]
        for line in group[1:]:
            odd, _ = xor(d, odd, line)
        outputs.append(odd)
    return d.board(outputs)


# random boards

def seeded(*words):
    """A source of chance that is always the same for the same words."""
    return random.Random(" ".join(map(str, words)))


def scattered(inputs, lines, outputs=16):
    """Gates of every kind on any lines not far below; every line leads on to an output."""
    rng, records = seeded("random", inputs, lines), [INPUT] * inputs
    unread = list(range(inputs))
    for line in range(inputs, lines):
        kind = rng.randrange(1, 9)
        count = 1 if kind < AND else rng.randrange(2, 5)
        needed = len(unread) > outputs or rng.random() < 0.5
        pins = {unread.pop(0)} if needed and unread else set()
        while len(pins) < count:
            pins.add(rng.randrange(max(0, line - 48), line))
        records.append((kind, tuple(rng.sample(sorted(pins), count))))
        unread = [i for i in unread if i not in pins] + [line]
    return Board(records, sorted(unread)[-64:])


def tied(inputs, lines):
    """Such a board with some of its gates made ties, and legs of others tied to these; it is not timed."""
    rng, board = seeded("tied", inputs, lines), scattered(inputs, lines)
    records, rails = list(board.records), []
    for line in range(inputs, lines):
        kind, pins = records[line]
        if line == inputs or rng.random() < 0.1:
            kind, pins = rng.choice((TIE0, TIE1)), ()
        elif rng.random() < 0.4:
            leg = rng.randrange(len(pins))
            pins = (*pins[:leg], rng.choice(rails), *pins[leg + 1:])
        rails += [line] * (pins == ())
        records[line] = kind, pins
    return Board(records, board.outputs)


def random_board(inputs):
    """A random board, of more lines with more inputs."""
    return scattered(inputs, 12 * inputs)


# boards where most faults are none

def triplicated(base):
    """A board three times over, with a voter for each output."""
    d = Drawing(base.inputs)
    copies = [d.copied(base) for _ in range(3)]
    return d.board([majority(d, *lines) for lines in zip(*copies)])


def covered(inputs, terms, spare):
    """An or of products, each beside itself and a function of `spare` gates, which is never needed."""
    d, rng = Drawing(inputs), seeded("cover", inputs, terms)
    ends = []
    for _ in range(terms):
        product, near = d.gate(AND, *rng.sample(d.inputs, 3)), list(d.inputs)
        for _ in range(spare):
            near.append(d.gate(rng.choice((AND, NAND, OR, NOR, XOR)), near[-1], *rng.sample(near[:-1], 2)))
        ends.append(d.gate(OR, product, d.gate(AND, product, near[-1])))
    return d.board([d.all_of(OR, ends[i::4]) for i in range(4)])


def voted_adder(inputs):
    """An adder three times over, with voters."""
    return triplicated(plain_adder(inputs))


# the boards by group, as the tables have them

FAMILIES = {
    "adder": adder, "multiplier": multiplier, "multiplexer": multiplexer, "tie arbiter": tie_arbiter, "round robin": round_robin,
    "parity": parity, "random": random_board, "voted adder": voted_adder,
}
MOSTLY_NONE = "20 inputs, most faults none"
MOST_NONE = {
    "voted adder": voted_adder,
    "voted multiplexer": lambda inputs: triplicated(picker(inputs)),
    "voted tie arbiter": lambda inputs: triplicated(tie_arbiter(inputs)),
    "voted parity": lambda inputs: triplicated(parity(inputs, xor_of_one)),
    "voted random": lambda inputs: triplicated(scattered(inputs, 6 * inputs)),
    "cover": lambda inputs: covered(inputs, 20, 8),
}
GROUPS = {
    **{f"{inputs} inputs": {name: family(inputs) for name, family in FAMILIES.items()} for inputs in (8, 16, 20)},
    MOSTLY_NONE: {name: family(20) for name, family in MOST_NONE.items()},
}
GROWTH = {
    "more inputs": {f"plain adder, {inputs} inputs": plain_adder(inputs) for inputs in range(4, 25, 4)},
    "more inputs, most faults none": {f"voted adder, {inputs} inputs": voted_adder(inputs) for inputs in range(4, 21, 4)},
    "more lines": {f"random, {lines} lines": scattered(16, lines) for lines in (64, 128, 192, 256, 384, 512)},
}


# the hall at two sizes of one shape, on which calls are timed that fill no book: its own would take hours
HALLS = {"32 inputs": {name: Board(*hall.hall(bays)) for name, bays in (("hall, 512 lines", 3), ("hall", hall.BAYS))}}


def within(board):
    """Whether a board keeps the papers' limits."""
    return board.lines <= MOST_LINES and 1 <= board.inputs <= MOST_INPUTS and 1 <= len(board.outputs) <= 64


def main(words):
    """Names every board, or writes the image of one, named by its group and its name."""
    boards = {f"{group}: {name}": board for part in (GROUPS, GROWTH, HALLS) for group, named in part.items() for name, board in named.items()}
    if words:
        sys.stdout.buffer.write(boards[words[0]].image())
        return 0
    for name, board in boards.items():
        print(f"{name:50} {board.lines:4} lines {board.inputs:3} inputs {len(board.outputs):3} outputs{'' if within(board) else ' OUTSIDE THE LIMITS'}")
    return 0 if all(map(within, boards.values())) else 1


if __name__ == "__main__":
    sys.exit(main(sys.argv[1:]))
