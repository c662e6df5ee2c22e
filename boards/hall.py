"""The board of an auction hall: a desk, and bays of one shape in a row, as many as are asked for.

Its 32 inputs are four select lines, four bidders' buttons, their bids of four lines each, the reserve price, and four lines of the desk. In the bay
that the select lines open, the highest bid of the bidders that press wins; on a tie the first of them does.
"""
from parts import AND, BUFFER, NAND, NOR, OR, XNOR, XOR, Drawing, chosen, decoded, greater, majority

# lines of the inputs and the desk, and of each bay
DESK, BAY = 128, 128
# the most bays that a board of 4,096 lines and 64 outputs has room for
BAYS = 31


class Hall:
    """The desk's lines that the bays share: inputs by their use, the select lines decoded, and the bay before's carry."""

    def __init__(self):
        """The inputs and their drivers, the decoder and the desk's own checks."""
        self.d = Drawing(32)
        driven = [self.d.gate(BUFFER, line) for line in self.d.inputs]
        self.selects, self.buttons, self.reserve = driven[:4], driven[4:8], driven[24:28]
        self.bids = [driven[i:i + 4] for i in range(8, 24, 4)]
        self.opened = decoded(self.d, self.selects, 16)
        above = greater(self.d, driven[22:28], [driven[i] for i in (31, 30, 29, 28, 9, 8)])
        self.carry = self.d.gate(XNOR, above, majority(self.d, *driven[29:32]))
        self.outputs = [self.d.all_of(XOR, driven), self.d.gate(NAND, self.carry, *self.buttons[:2], driven[28])]

    def bay(self, number):
        """One bay. Its bidders come in another order than the bay's before, and every other one reads the bids' lines backwards."""
        d, step = self.d, 1 if number % 2 else -1
        opened = d.gate(BUFFER, self.opened[number % 16])
        order = [(number // 2 + i) % 4 for i in range(4)]
        a, b, c, e = ([d.gate(AND, line, self.buttons[i], opened) for line in self.bids[i][::step]] for i in order)
        second, last = greater(d, b, a), greater(d, e, c)
        low, _ = chosen(d, second, a, b)
        high, not_last = chosen(d, last, c, e)
        over = greater(d, high, low)
        top, not_over = chosen(d, over, low, high)
        wins = d.gate(NOR, second, over), d.gate(AND, second, not_over), d.gate(AND, over, not_last), d.gate(AND, over, last)
        tie = d.gate(NOR, *(d.gate(XOR, *pair) for pair in zip(a, b)))
        met = d.gate(AND, *(d.gate(XNOR, *pair) for pair in zip(top, self.reserve)))
        sold = d.gate(NAND, opened, d.gate(OR, *wins[1:], top[0]), d.gate(OR, met, wins[0]))
        self.outputs.append(d.gate(XOR, wins[0], wins[1], top[1], self.carry))
        self.carry = d.gate(XNOR, self.carry, sold, tie)
        self.outputs.append(d.gate(XNOR, wins[2], top[2], top[3], self.carry))
        # a spare gate, which no line reads
        d.gate(OR, *wins)


def hall(bays=BAYS):
    """The records, as kind and pins, and the output lines of a hall with so many bays."""
    made = Hall()
    for number in range(bays):
        made.bay(number)
    return made.d.records, sorted(made.outputs)
