"""A board in the making, and the parts of which boards are built."""
INPUT, BUFFER, NOT, AND, NAND, OR, NOR, XOR, XNOR, TIE0, TIE1 = range(11)


class Drawing:
    """A board in the making: lines are added one after another, and each is then known by its number."""

    def __init__(self, inputs):
        """A drawing of inputs alone."""
        self.records, self.inputs = [(INPUT, ())] * inputs, list(range(inputs))

    def gate(self, kind, *pins):
        """A gate's line."""
        self.records.append((kind, pins))
        return len(self.records) - 1

    def all_of(self, kind, lines):
        """The line that gathers any number of lines by ands, ors or exclusive-ors of up to four pins."""
        while len(lines) > 1:
            parts = [lines[i:i + 4] for i in range(0, len(lines), 4)]
            lines = [self.gate(kind, *part) if len(part) > 1 else part[0] for part in parts]
        return lines[0]


def decoded(d, selects, count):
    """A line for each number below the count, 1 when the select lines have that number."""
    opposite = [d.gate(NOT, line) for line in selects]
    return [d.gate(AND, *((select if number >> i & 1 else no) for i, (select, no) in enumerate(zip(selects, opposite)))) for number in range(count)]


def greater(d, a, b):
    """Whether one number is greater than another of as many lines, the lowest first."""
    above = d.gate(AND, a[0], d.gate(NOT, b[0]))
    for left, right in zip(a[1:], b[1:]):
        more, same = d.gate(AND, left, d.gate(NOT, right)), d.gate(XNOR, left, right)
        above = d.gate(OR, more, d.gate(AND, same, above))
    return above


def chosen(d, switch, off, on):
    """One of two numbers by a line, and that line's opposite."""
    opposite = d.gate(NOT, switch)
    return [d.gate(NAND, d.gate(NAND, low, opposite), d.gate(NAND, high, switch)) for low, high in zip(off, on)], opposite


def majority(d, a, b, c):
    """What two of three lines say."""
    return d.gate(OR, d.gate(AND, a, b), d.gate(AND, a, c), d.gate(AND, b, c))
