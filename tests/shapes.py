"""Boards of every shape for the comparison, good images of them, and images with one thing wrong."""
import importlib.util
import struct
from pathlib import Path

ROOT = Path(__file__).resolve().parent.parent
spec = importlib.util.spec_from_file_location("make", ROOT / "boards/make.py")
make = importlib.util.module_from_spec(spec)
spec.loader.exec_module(make)

# the most lines and the most inputs of a board, and the entry for none
MOST_LINES, MOST_INPUTS, NONE = 4096, 32, 2**64 - 1


class Board:
    """Records as (kind, pins), output lines and a note."""

    def __init__(self, records, outputs, note=b""):
        """A board of these records, good or bad."""
        self.records, self.outputs, self.note = list(records), list(outputs), note
        self.inputs = sum(kind == make.INPUT for kind, _ in self.records)
        self.lines = len(self.records)

    def image(self):
        """The bytes of its image."""
        return make.image([packed(record) for record in self.records], self.outputs, self.note)

    def cost(self, faults=1):
        """How many gate values a search for so many faults asks for at most."""
        return faults * 2 * self.lines << self.inputs

    def used_pins(self):
        """How many pins all its gates have."""
        return sum(len(pins) for _, pins in self.records)

    def faults(self):
        """All its faults as (line, stuck value, pin), of lines with no pin and of used pins."""
        places = [(line, pin) for line, (_, pins) in enumerate(self.records) for pin in (None, *range(len(pins)))]
        return [(line, stuck, pin) for line, pin in places for stuck in (0, 1)]

    def reached(self, left_out=None):
        """For each line which outputs it reaches, bit j for the j-th; where a pin is left out, through the other pins alone."""
        bits = [0] * self.lines
        for j, output in enumerate(self.outputs):
            bits[output] |= 1 << j
        for line in reversed(range(self.lines)):
            if bits[line]:
                for pin, below in enumerate(self.records[line][1]):
                    bits[below] |= bits[line] if pin != left_out else 0
        return bits

    def exclusive_ors(self):
        """Its exclusive-ors of three and four pins, and their opposites: the line and the pins of each."""
        return [(line, pins) for line, (kind, pins) in enumerate(self.records) if kind in (make.XOR, make.XNOR) and len(pins) > 2]

    def altered(self, line, record):
        """The board with another record on a line."""
        return Board([*self.records[:line], record, *self.records[line + 1:]], self.outputs, self.note)

    def record_at(self, line):
        """Where a line's record starts in the image."""
        return len(self.note) + 10 * line


INPUT = (make.INPUT, ())
# the kinds of gates that have pins, and of those that have none
PINNED, TIES = range(make.BUFFER, make.XNOR + 1), (make.TIE0, make.TIE1)


def packed(record):
    """The ten bytes of a record."""
    kind, pins = record
    return make.record(kind, *pins)


def unpacked(data):
    """The record of ten bytes."""
    kind, count, *pins = struct.unpack("<BB4H", data)
    return kind, tuple(pins[:count])


def board_of(image):
    """The board of a good image."""
    lines, outputs, distance = struct.unpack("<HHI", image[-12:-4])
    note, rest = image[:-distance], image[-distance:]
    return Board([unpacked(rest[10 * i:10 * i + 10]) for i in range(lines)], struct.unpack(f"<{outputs}H", rest[10 * lines:-12]), note)


def shared(before, after, line, left_out=None):
    """For each line the outputs that it and an altered line both reach, as bits: before, and after."""
    rows = [board.reached(left_out) for board in (before, after)]
    return list(zip(*([bits & row[line] for bits in row] for row in rows)))


def is_tie(record):
    """Whether a record is a line tied to a rail."""
    return record[0] in TIES


def any_kind(rng):
    """A gate's kind; a tie half as often as any other."""
    return rng.choice((*PINNED, *PINNED, *TIES))


def pin_count(rng, kind):
    """A pin count that is allowed for a gate of this kind."""
    return 0 if kind in TIES else 1 if kind < make.AND else rng.randrange(2, 5)


def gate(rng, low, line, kind=None):
    """A good gate for a line, with pins from `low` on; some name one line on two pins."""
    kind = kind or any_kind(rng)
    pins = [rng.randrange(low, line) for _ in range(pin_count(rng, kind))]
    if len(pins) > 1 and rng.random() < 0.15:
        pins[-1] = pins[0]
    return kind, tuple(pins)


def some_outputs(rng, lines, most):
    """Some rising output lines; the last line is often one of them."""
    outputs = set(rng.sample(range(lines), rng.randint(1, min(lines, most))))
    if rng.random() < 0.7 and len(outputs) < 64:
        outputs.add(lines - 1)
    return sorted(outputs)


def mixed(rng, inputs, gates, most_outputs=4, near=24):
    """Gates of every kind on lines not far below."""
    records = [INPUT] * inputs
    for line in range(inputs, inputs + gates):
        records.append(gate(rng, max(0, line - near), line))
    return Board(records, some_outputs(rng, len(records), most_outputs))


def chain(rng, inputs, gates):
    """Buffers and nots, each on the line before."""
    records = [INPUT] * inputs + [(rng.choice((1, 2)), (inputs - 1 + i,)) for i in range(gates)]
    return Board(records, [len(records) - 1])


def tree(rng, inputs, _gates):
    """Gates that take each line once, down to one output."""
    records, free = [INPUT] * inputs, list(range(inputs))
    while len(free) > 1:
        count = min(len(free), rng.randrange(2, 5))
        records.append((rng.randrange(3, 9), tuple(free[:count])))
        free = free[count:] + [len(records) - 1]
    return Board(records, free)


def redundant(rng, inputs, gates):
    """Much meets its own opposite again, so that many faults have no test."""
    records = [INPUT] * inputs
    for line in range(inputs, inputs + gates):
        pins = (rng.randrange(inputs), line - 1, rng.randrange(max(0, line - 3), line))
        records.append((make.NOT, pins[:1]) if line % 3 == 0 else (rng.randrange(3, 9), pins[: rng.randrange(2, 4)]))
    return Board(records, [len(records) - 1])


def islands(rng, inputs, gates):
    """Parts side by side with an output each, which alterations may join and cut."""
    count = rng.randint(2, 3)
    records, ends = [INPUT] * inputs, {i % count: i for i in range(inputs)}
    for line in range(inputs, inputs + gates):
        part = line % count
        below = [i for i in range(line) if i % count == part] or [0]
        kind = any_kind(rng)
        records.append((kind, tuple(rng.choice(below) for _ in range(pin_count(rng, kind)))))
        ends[part] = line
    return Board(records, sorted(set(ends.values())))


def tied(rng, inputs, gates):
    """Gates of every kind, most of them with a leg or two tied to a rail, at any place; ties right after the inputs, among the gates and last."""
    records = [INPUT] * inputs + [(kind, ()) for kind in rng.choice((TIES, TIES[::-1], TIES[:1], TIES[1:]))]
    for line in range(len(records), len(records) + gates):
        kind, pins = gate(rng, 0, line)
        rails, pins = [i for i, record in enumerate(records) if is_tie(record)], list(pins)
        for place in rng.sample(range(len(pins)), min(len(pins), rng.choice((0, 1, 1, 1, 2)))):
            pins[place] = rng.choice(rails)
        records.append((kind, tuple(pins)))
    if rng.random() < 0.3:
        records.append((rng.choice(TIES), ()))
    return Board(records, some_outputs(rng, len(records), 4))


def ties_only(rng, inputs, gates):
    """No gate but ties; some of them are outputs."""
    records = [INPUT] * inputs + [(rng.choice(TIES), ()) for _ in range(gates)]
    return Board(records, some_outputs(rng, len(records), 8))


def inputs_only(rng, inputs, _gates):
    """No gate at all; outputs are inputs."""
    return Board([INPUT] * inputs, some_outputs(rng, inputs, inputs))


def sheet(rng, *_):
    """Boards S, T and H of document 01."""
    s = [INPUT] * 4 + [(make.NOR, p) for p in ((1, 2), (4, 0), (4, 3), (0, 2), (7, 1), (1, 3), (9, 2), (5, 6, 8, 10))]
    t = [INPUT, (make.NOT, (0,)), (make.OR, (0, 1))]
    h = [INPUT, INPUT, (make.NOT, (0,)), (make.BUFFER, (1,))]
    return Board(*rng.choice(((s, [11]), (t, [2]), (h, [2, 3]))))


def rails(*_):
    """The sample board with lines tied to a rail."""
    return board_of(make.RAILS)


def a_note(rng):
    """A note: often none, else up to 256 bytes, some of them with a whole trailer or a whole image inside."""
    kind = rng.randrange(6)
    if kind < 3:
        return b""
    if kind == 3:
        return rng.randbytes(rng.choice((1, 12, 255, 256, rng.randrange(257))))
    inside = rng.choice((make.T, make.T[-12:], make.H, make.MARK))
    return rng.choice((inside, (rng.randbytes(256) + inside)[-256:], inside.ljust(256, b"\0")))


SHAPES = (mixed, mixed, chain, tree, redundant, redundant, islands, islands, inputs_only, sheet, tied, tied, ties_only, rails)


def small(rng):
    """A board of a few lines."""
    board = rng.choice(SHAPES)(rng, rng.randint(1, 4), rng.randint(1, 8))
    board.note = a_note(rng)
    return board


def middle(rng):
    """A board of some ten lines."""
    board = rng.choice((mixed, redundant, islands, tied))(rng, rng.randint(2, 7), rng.randint(6, 40))
    board.note = a_note(rng)
    return board


def late(rng):
    """A board of 7 to 13 inputs and few gates, where the first pattern that shows a fault is often a high one."""
    shape = rng.choice((tree, tree, mixed))
    return shape(rng, rng.randint(7, 13), rng.randint(2, 5))


def large(rng):
    """A board of some hundred lines and up to 64 outputs, with few inputs."""
    lines, inputs = rng.choice((512, 511, 256, 257, rng.randrange(65, 512))), rng.randint(1, 3)
    board = mixed(rng, inputs, lines - inputs, 64, rng.choice((4, 24, 512)))
    if rng.random() < 0.3:
        board.outputs = sorted(rng.sample(range(lines), 64))
    if rng.random() < 0.3:
        board = chain(rng, inputs, lines - inputs)
    board.note = rng.choice((b"", rng.randbytes(256)))
    return board


def bigger(rng, most=MOST_LINES):
    """A board of over 512 lines and up to 64 outputs, with few inputs; few are of the most lines or of one less, as these take long."""
    lines, inputs = rng.choice((most, rng.randrange(514, most), 513, *(rng.randrange(514, min(800, most)) for _ in range(3)))), rng.randint(1, 2)
    lines -= lines == most and rng.random() < 0.3
    board = rng.choice((mixed, mixed, chain))(rng, inputs, lines - inputs)
    board.outputs = sorted({*rng.sample(range(lines - 200, lines), rng.choice((1, 8, 63))), lines - 1})
    board.note = rng.choice((b"", rng.randbytes(256)))
    return board


def wide(rng):
    """A board of up to 32 inputs with a few gates behind them; the last gate reaches no output."""
    inputs = rng.choice((MOST_INPUTS, MOST_INPUTS, MOST_INPUTS - 1, 25, 24, rng.randrange(12, MOST_INPUTS)))
    records = [INPUT] * inputs
    for line in range(inputs, inputs + rng.randrange(4)):
        records.append(gate(rng, 0, line))
    outputs = some_outputs(rng, len(records), 8)
    return Board(records + [gate(rng, 0, len(records))], outputs, a_note(rng))


def early(rng):
    """A board of over 24 inputs whose outputs are gates on the first few, each input of a gate once: an early pattern shows every fault of theirs.
    No gate is a tie: no pattern at all shows it at its own value."""
    inputs = rng.choice((MOST_INPUTS, MOST_INPUTS, rng.randrange(25, MOST_INPUTS)))
    kinds = [rng.choice(PINNED) for _ in range(rng.randint(2, 6))]
    gates = [(kind, tuple(rng.sample(range(7), pin_count(rng, kind)))) for kind in kinds]
    return Board([INPUT] * inputs + gates, range(inputs, inputs + len(gates)), a_note(rng))


def strands(rng):
    """Strands side by side, each going on through any one pin of a gate whose others are inputs; a few meet, a few are cut by a tie, and most end in an
    output."""
    outputs, lines = rng.choice(((64, 72), (64, 72), (64, 72), (64, 100), (64, 140), (64, 512), (64, 1000), (33, 60), (3, 40)))
    inputs = rng.randint(1, 2) if lines < 512 else 1
    loose = rng.choice((0, 1, (lines - outputs) // 4, (lines - outputs) // 4)) if lines < 1000 else lines // 4
    records, ends = [INPUT] * inputs, [rng.randrange(inputs) for _ in range(outputs + loose)]
    for line in range(inputs, lines):
        strand = line % len(ends) if line < 2 * len(ends) else rng.randrange(len(ends))
        if rng.random() < 0.04:
            records.append((rng.choice(TIES), ()))
            ends[strand] = line
            continue
        kind = rng.choice(PINNED)
        pins = [rng.randrange(inputs) for _ in range(pin_count(rng, kind))]
        if rng.random() < 0.1:
            pins[0] = rng.choice(ends)
        pins[rng.randrange(len(pins))] = ends[strand]
        records.append((kind, tuple(pins)))
        ends[strand] = line
    own = rng.randrange(inputs + 1)
    chosen = [*range(own), *rng.sample(ends, outputs - own)] if rng.random() < 0.8 else rng.sample(range(lines), outputs)
    return Board(records, sorted(chosen), a_note(rng))


def exclusive_ors(rng):
    """Exclusive-ors of three and four pins on inputs, then on any lines below, with ands and ors among these; no gate has a line twice."""
    inputs = rng.randint(4, 5)
    apart = lambda low, high, below: tuple(rng.sample(range(below), rng.randint(low, high)))
    odd = lambda low, high, below: (rng.choice((make.XOR, make.XNOR)), apart(low, high, below))
    records = [INPUT] * inputs + [odd(3, 3, inputs), odd(4, 4, inputs)]
    for _ in range(rng.randint(4, 7)):
        below = len(records)
        records.append(odd(3, 4, below) if rng.random() < 0.5 else (rng.choice((make.AND, make.OR)), apart(2, 3, below)))
    return Board(records, some_outputs(rng, len(records), 3), a_note(rng))


def some_islands(rng):
    """A small board of parts side by side."""
    return islands(rng, rng.randint(2, 4), rng.randint(3, 10))


def good_record(rng, line):
    """A record that a gate's line takes; pins near or far, and a tie more often than `gate` gives one."""
    return gate(rng, rng.choice((0, max(0, line - 6))), line, rng.choice((*[None] * 8, *TIES)))


def bad_record(rng, line):
    """Ten bytes that are a bad record at a line: each field in turn may be the first bad one."""
    kind, pins = gate(rng, 0, line) if line else (make.BUFFER, (0,))
    data = bytearray(make.record(kind, *pins))
    field = rng.randrange(6)
    too_high = rng.choice((line, line + 1, MOST_LINES - 1, MOST_LINES, 65535, line + 256))
    if field == 0:
        data[0] = rng.choice((0, 11, 11, 12, 128, 255))
    elif field == 1 and rng.random() < 0.2:
        data[0] = rng.choice(TIES if pins else PINNED)
    elif field == 1:
        data[1] = rng.choice((1, 1, 2, 3, 4, 5, 255) if kind in TIES else (0, 2, 2, 3, 255) if kind < 3 else (0, 1, 1, 5, 5, 6, 255))
    else:
        struct.pack_into("<H", data, 2 * field - 2, max(too_high, line))
    if rng.random() < 0.3:
        at = rng.randrange(10)
        data[at] = rng.choice((0, 1, 5, 255))
    return bytes(data)


def with_counts(board, lines=None, outputs=None, distance=None):
    """The image with other numbers in its trailer; by default those that fit."""
    image = board.image()
    lines = board.lines if lines is None else lines
    outputs = len(board.outputs) if outputs is None else outputs
    distance = 12 + 2 * outputs + 10 * lines if distance is None else distance
    return image[:-12] + struct.pack("<HHI", lines, outputs, distance % 2**32) + make.MARK


def bad_mark(rng, board):
    """Refusal 1: too short, or another mark."""
    image = board.image()
    at = len(image) - rng.randint(1, 4)
    other = make.changed(image, at, bytes([image[at] ^ 1 << rng.randrange(8)]))
    return rng.choice((b"", image[-rng.randint(1, 11):], image[:-1], other, image + b"\0", image[:-4]))


def bad_counts(rng, board):
    """Refusal 2: no line, 4,097 lines, no output, 65 outputs, or far more; the distance may fit them."""
    distance = rng.choice((None, 44, 0))
    if rng.random() < 0.15:
        return chain(rng, 1, MOST_LINES).image()
    if rng.random() < 0.2:
        return Board(chain(rng, 1, 70).records, range(65)).image()
    if rng.random() < 0.5:
        return with_counts(board, lines=rng.choice((0, MOST_LINES + 1, MOST_LINES + 2, MOST_LINES + 256, 65535)), distance=distance)
    return with_counts(board, outputs=rng.choice((0, 65, 66, 256, 257, 65535)), distance=distance)


def bad_distance(rng, board):
    """Refusal 3: each of its three ways, over all 32 bits."""
    image, right = board.image(), 12 + 2 * len(board.outputs) + 10 * board.lines
    way = rng.randrange(7)
    if way > 4:
        return with_counts(board, distance=right + rng.choice((0x10000, 2**24, 2**31, 2**16 * rng.randrange(2, 2**15))))
    if way == 0:
        off = (right + 1, right - 1, 0, 12, 2**32 - 1, len(image) + 1, len(image))
        return with_counts(board, distance=rng.choice(off))
    if way == 1:
        return image[-right:][rng.randint(1, right - 12):]
    if way == 2:
        return rng.randbytes(257) + image[-right:]
    if way == 3:
        return bytes(rng.choice((0, right - 13, right + 245))) + image[-12:]
    return with_counts(board, lines=board.lines % MOST_LINES + 1, distance=right)


def bad_records(rng, board):
    """Refusal 4: a bad record at the first, the last or any line, a 33rd input, an input after a gate or after a tie, a gate or a tie at line 0."""
    image = board.image()
    way = rng.randrange(9)
    if way == 0:
        return Board([INPUT] * (MOST_INPUTS + rng.choice((1, 2, 8))) + [(make.AND, (0, 31))], [MOST_INPUTS]).image()
    if way == 1 and board.lines > board.inputs:
        return make.changed(image, board.record_at(board.lines - 1), make.record(make.INPUT))
    if way == 2:
        few = [INPUT] * rng.randint(1, 3) + [(rng.choice(TIES), ())]
        return Board([*few, INPUT, *rng.choice(([], few, [(make.BUFFER, (0,))]))], [0]).image()
    for line in {rng.choice((0, board.lines - 1, rng.randrange(board.lines))) for _ in range(rng.randint(1, 2))}:
        data = bad_record(rng, line)
        if line < board.inputs:
            at = rng.randrange(1, 10)
            data = make.changed(make.record(make.INPUT), at, bytes([rng.randint(1, 255)]))
        if line == 0 and rng.random() < 0.5:
            data = make.record(rng.randrange(1, 12), *([rng.choice((0, 0, 1, 65535))] * rng.randint(0, 4)))
        image = make.changed(image, board.record_at(line), data)
    return image


def bad_outputs(rng, board):
    """Refusal 5: an output equal to the one before, below it, or not below the line count."""
    outputs = list(board.outputs)
    while len(outputs) < min(3, board.lines):
        outputs = sorted(set(outputs) | {rng.randrange(board.lines)})
    for _ in range(rng.randint(1, 2)):
        place = rng.randrange(len(outputs))
        before = outputs[place - 1] if place else board.lines
        outputs[place] = rng.choice((before, max(before - 1, 0), board.lines, board.lines + 1, 65535, board.lines + 256))
    return Board(board.records, outputs, board.note).image()


DEFECTS = (bad_mark, bad_counts, bad_distance, bad_records, bad_outputs)


def several_defects(rng, board):
    """A bad record and bad outputs at once, under a trailer that may be bad too."""
    worse = Board(board.records, [o + board.lines for o in board.outputs], board.note)
    image = bad_records(rng, worse)
    if rng.random() < 0.5:
        image = make.changed(image, len(image) - rng.randint(1, 12), rng.randbytes(1))
    return image


def damaged(rng, image):
    """A good image with a byte or a bit changed, cut short or made longer."""
    way, at = rng.randrange(7), rng.randrange(len(image))
    if way < 3:
        return make.changed(image, at, bytes([image[at] ^ 1 << rng.randrange(8)]))
    if way == 3:
        return make.changed(image, at, rng.randbytes(1))
    if way == 4:
        return image[: at + 1] if rng.random() < 0.5 else image[at:]
    if way == 5:
        return image[:at] + rng.randbytes(rng.randint(1, 3)) + image[at:]
    return image[:at] + image[at + 1:]


def random_bytes(rng):
    """Random bytes as an image; some with a mark, some with a trailer that fits their length."""
    data = rng.randbytes(rng.randrange(120))
    way = rng.randrange(3)
    if way == 0:
        return data
    if way == 1:
        return data + make.MARK
    lines, outputs = rng.randint(1, 8), rng.randint(1, 4)
    few = bytes(rng.randrange(rng.choice((2, 12))) for _ in range(10 * lines + 2 * outputs))
    return few + struct.pack("<HHI", lines, outputs, 12 + len(few)) + make.MARK
