"""Command scripts for the console, made from a seed.

A script is a run of parts. Each part but the first begins by loading an image, so that it stands on its own. After every call that
lends a buffer the script asks for what is left in it.
"""
import functools
import itertools
import random

import drawings
import shapes
from shapes import MOST_LINES, NONE, make

TOP = 2**64 - 1
# entries at the edges: the largest pattern there can be, the mark for none, and one less
EDGES = (2**32 - 1, NONE, NONE - 1)
# the credit in gate values that each command earns for searches, so that a script's time grows with its length alone
CREDIT = 15_000
# how many entries an alteration of a board with many outputs may touch, so that the time goes to many alterations
FEW = 80
LOOKS = (b"image", b"entries", b"pin entries", b"show good 0", b"show faulty 0")


class Script:
    """The commands so far, where each part begins, the image's board and what is lent."""

    def __init__(self, seed):
        """An empty script, with credit for a few searches."""
        self.rng = random.Random(seed)
        self.commands, self.parts, self.credit = [], [], 200_000
        self.board = None

    def add(self, part):
        """Adds a part."""
        self.parts.append((len(self.commands), part.__name__))
        part(self)

    def say(self, *words):
        """Adds a command; numbers and bytes become words."""
        self.commands.append(b" ".join(self.word(w) for w in words))
        self.credit += CREDIT

    def word(self, value):
        """A word: text as it is, a number with zeros before it at times, bytes as hex in either case or in both."""
        if isinstance(value, str):
            return value.encode()
        if isinstance(value, int):
            return b"%s%d" % (b"0" * self.rng.choice((1, 3, 30, 2000)) if self.rng.random() < 0.02 else b"", value)
        text, case = value.hex() or "-", self.rng.random()
        return (text if case < 0.6 else text.upper() if case < 0.9 else text.upper().replace("A", "a").replace("C", "c")).encode()

    def fault(self, line, stuck, pin=None):
        """The word of a fault: of a line, or of one of its pins."""
        place = self.word(line) if pin is None else self.word(line) + b"." + self.word(pin)
        return (place + b"/" + self.word(stuck)).decode()

    def afford(self, cost):
        """Whether a search of this cost may be asked for now; it is then paid."""
        if cost > self.credit:
            return False
        self.credit -= cost
        return True

    def load(self, board):
        """Loads a board; rows and both books of the right length are then lent."""
        self.board = board
        self.say("load", board.image())

    def look(self, *what):
        """Asks for what is left in the lent buffers."""
        for one in what:
            self.say(one)

    def look_rows(self):
        """Asks for both rows."""
        self.look("show good 0", "show faulty 0")

    # the calls, each with a look at what was lent

    def rows(self, pattern, line, stuck, pin=None):
        """Rows, and both rows after it."""
        self.say("rows", pattern, self.fault(line, stuck, pin))
        self.look_rows()

    def judge(self, pattern, line, stuck, pin=None):
        """Judge, which lends nothing."""
        self.say("judge", pattern, self.fault(line, stuck, pin))

    def find(self, line, stuck, pin=None):
        """Find, where its time is at hand."""
        if self.afford(self.board.cost()):
            self.say("find", self.fault(line, stuck, pin))

    def book(self):
        """Book and the entries after it, where its time is at hand."""
        if self.afford(self.board.cost(2 * self.board.lines)):
            self.say("book")
            self.look("entries")

    def pin_book(self):
        """The pin book's filling and its entries after it, where its time is at hand; an absent pin takes none."""
        if self.afford(self.board.cost(2 * self.board.used_pins())):
            self.say("pin book")
            self.look("pin entries")

    def alter(self, line, record):
        """Alter, then both books and the image, where its time is at hand; gives whether it was."""
        most_pins = self.board.used_pins() + 4
        affordable = self.afford(self.board.cost(2 * self.board.lines + 2 * most_pins))
        if affordable:
            self.say("alter", line, record)
            self.look("entries", "pin entries", "image")
        return affordable

    def refresh(self, line, pattern):
        """Refresh, and the good row after it."""
        self.say("refresh", line, pattern)
        self.look("show good 0")

    def five(self, named, values, line, stuck, pin=None):
        """Five values, and the good row after it."""
        self.say("five", named, values, self.fault(line, stuck, pin))
        self.look("show good 0")

    def read(self, text):
        """The reader, and the target after it."""
        self.say("read", text)
        self.look("target")

    def write(self):
        """The writer, and the target after it."""
        self.say("write")
        self.look("target")

    # arguments, good and bad

    def line(self):
        """A line of the board."""
        return self.rng.randrange(self.board.lines)

    def gate(self):
        """A gate's line, or an input's where there is no gate."""
        return self.rng.randrange(min(self.board.inputs, self.board.lines - 1), self.board.lines)

    def pins(self, line):
        """How many pins a line has: none for an input, a tie or a line that is not there."""
        return len(self.board.records[line][1]) if line < self.board.lines else 0

    def pin(self, line):
        """A used pin of a line; nothing for an input or a tie, which has none."""
        return self.rng.randrange(self.pins(line)) if self.pins(line) else None

    def pin_fault(self):
        """A fault of a used pin as line, stuck value and pin; of a line where there is no gate or it is a tie."""
        line = self.gate()
        return line, self.stuck(), self.pin(line)

    def any_fault(self):
        """A fault of either sort, as line, stuck value and pin."""
        return self.rng.choice(((self.line(), self.stuck(), None), self.pin_fault()))

    def pattern(self):
        """A pattern of the board's inputs."""
        most = 2**self.board.inputs - 1
        return self.rng.choice((0, most, self.rng.randint(0, most), self.rng.randint(0, most)))

    def stuck(self):
        """0 or 1."""
        return self.rng.randrange(2)

    def bad_line(self):
        """A line at or past the line count; some would be good were they cut to 8, 16 or 32 bits."""
        n = self.board.lines
        return self.rng.choice((n, n, n + 1, max(n, 256), max(n, 512), MOST_LINES, 65535, 65536, 2**32, 2**32 + 1, 2**63, 10**18, TOP))

    def bad_stuck(self):
        """A stuck value over 1; some would be good were they cut to 8 or 32 bits."""
        return self.rng.choice((2, 2, 3, 9, 254, 255, 256, 257, 300, 2**32, 2**32 + 1, 2**63, TOP))

    def bad_pin(self, line):
        """A pin that the line does not have; some would be good were they cut to 8, 16 or 32 bits."""
        count = self.pins(line)
        return self.rng.choice((count, count, count, count + 1, 4, 5, 255, 256, 65536, 2**32, 2**32 + 1, 2**63, 10**18, TOP))

    def bad_pattern(self):
        """A pattern with a bit at or above the input count."""
        high = 1 << self.board.inputs
        return self.rng.choice((high, high, high + self.pattern(), 2**32, 2**32 + 1, 2**33 - 1, 2**63, TOP, max(high, 2**24)))

    def partial(self):
        """A partial pattern: which inputs are named, and values there alone."""
        named = self.pattern()
        return named, named & self.pattern()

    def bad_partial(self):
        """A partial pattern that is bad in one of the three ways, or in several."""
        high, low = self.bad_pattern(), self.pattern()
        unnamed = 1 << self.rng.randrange(self.board.inputs)
        named = low & ~unnamed
        return self.rng.choice(((high, 0), (high | low, low), (low, high), (high, high), (named, unnamed),
                                (named, unnamed | named), (0, TOP), (TOP, 0), (TOP, TOP), (0, 1)))

    def mixed_arguments(self, bad):
        """A fault (of a pin as often as of a line), pattern and partial pattern, each part of them bad with this chance."""
        chance = lambda good, poor: poor() if self.rng.random() < bad else good()
        line, stuck = chance(self.rng.choice((self.line, self.gate)), self.bad_line), chance(self.stuck, self.bad_stuck)
        pin = chance(lambda: self.rng.randrange(self.pins(line) or 4), lambda: self.bad_pin(line))
        return ((line, stuck, self.rng.choice((None, pin))), chance(self.pattern, self.bad_pattern),
                chance(self.partial, self.bad_partial))

    def lend_books(self):
        """Lends books of lengths near the right ones, at times each of the length that is right for the other."""
        book, pins = 2 * self.board.lines, 8 * self.board.lines
        way = self.rng.random()
        if way < 0.2:
            book, pins = pins, book
        if way < 0.6:
            self.say("lend book", length_near(self.rng, book) if way > 0.2 else book)
        if way < 0.2 or way > 0.4:
            self.say("lend pins", length_near(self.rng, pins) if way > 0.2 else pins)


def length_near(rng, right):
    """A length for a lent buffer: often right, else one off, nothing, 7, or far off."""
    return rng.choice((right, right, right, right + 1, max(right - 1, 0), 0, 7, 2 * right, right // 2, right + 256))


def a_record(s, line):
    """A record for an alteration: good there, the same as before, bad there, or of kind 0."""
    way, board = s.rng.randrange(8), s.board
    if way == 0 or line >= board.lines or line == 0:
        return shapes.bad_record(s.rng, min(line, board.lines))
    if way == 1:
        return make.record(make.INPUT)
    if way == 2:
        return shapes.packed(board.records[line])
    if way == 3:
        return shapes.bad_record(s.rng, line)
    return shapes.packed(shapes.good_record(s.rng, line))


def any_call(s, bad):
    """One call, with arguments that are bad with this chance."""
    fault, pattern, partial = s.mixed_arguments(bad)
    line = fault[0]
    s.rng.choice((lambda: s.rows(pattern, *fault), lambda: s.judge(pattern, *fault), lambda: s.find(*fault), s.book, s.pin_book,
                  lambda: s.alter(line, a_record(s, line)), lambda: s.refresh(line, pattern), lambda: s.five(*partial, *fault)))()


# the parts

def before_load(s):
    """Commands before the first load: a script's first part."""
    s.board = shapes.sheet(s.rng)
    for command in ("image", "check", "entries", "pin entries", "show good 0", "show faulty 5", "book", "pin book", "find 0/0",
                    "find 0.0/0", "rows 0 0/0", "judge 0 0.0/0", "refresh 0 0", "five 0 0 0/0", "alter 0 02010000000000000000",
                    "put entry 0 1", "put pin 0 1", "write", "read " + drawings.drawing(s.board).hex(), "read -", "lend target 40", "write",
                    "import board.txt", "target", "help"):
        if s.rng.random() < 0.8:
            s.say(command)
            s.look(s.rng.choice((*LOOKS, b"target")).decode())


def exhaustive(s):
    """A small board whole: both books, the find of many faults, and all patterns for one."""
    s.load(s.rng.choice((shapes.small, shapes.small, shapes.late))(s.rng))
    s.book()
    s.pin_book()
    faults = s.board.faults()
    for fault in s.rng.sample(faults, min(len(faults), 32)):
        s.find(*fault)
    fault = s.any_fault()
    for pattern in range(min(16, 1 << s.board.inputs)):
        s.judge(pattern, *fault)
    s.rows(s.pattern(), *s.any_fault())


def every_row(s):
    """Rows and judge at random on boards of all sizes."""
    s.load(s.rng.choice((shapes.small, shapes.middle, shapes.middle, shapes.large))(s.rng))
    for _ in range(6):
        s.say("put faulty", s.rng.randbytes(length_near(s.rng, s.board.lines)))
        s.rows(s.pattern(), *s.any_fault())
        s.judge(s.pattern(), *s.any_fault())
        s.find(*s.any_fault())
        row, from_line = s.rng.choice(("good", "faulty")), s.rng.choice((s.line(), s.bad_line()))
        s.say("show", row, from_line)


def largest(s):
    """Boards of some hundred lines and up to 64 outputs through the calls that search little, and whole books where their time is at hand."""
    s.load(shapes.large(s.rng))
    s.find(*s.any_fault())
    s.rows(s.pattern(), *s.any_fault())
    s.refresh(s.line(), s.pattern())
    s.five(*s.partial(), *s.any_fault())
    for call in s.rng.sample((s.book, s.pin_book, lambda: good_alteration(s, s.gate())), 3):
        call()


def many_inputs(s):
    """Boards of up to 32 inputs: find only where an early pattern shows the fault, alter only where nothing is touched."""
    board = shapes.wide(s.rng)
    s.load(board)
    for _ in range(3):
        s.rows(s.pattern(), *s.any_fault())
        s.judge(s.rng.choice((s.pattern(), s.bad_pattern())), *s.any_fault())
        s.five(*s.rng.choice((s.partial(), s.bad_partial())), *s.any_fault())
        s.say("put good", bytes(s.stuck() for _ in range(board.lines)))
        s.refresh(s.line(), s.rng.choice((s.pattern(), s.bad_pattern())))
    for output in (o for o in board.outputs if o < board.inputs):
        s.say("find", s.fault(output, 1))
        if s.afford(2 * board.lines << output):
            s.say("find", s.fault(output, 0))
    last = board.lines - 1
    s.say("find", s.fault(last, s.stuck(), s.bad_pin(last)))
    s.say("put entry", s.rng.randrange(2 * board.lines), s.rng.choice((7, *EDGES)))
    s.say("put pin", 8 * last + s.rng.randrange(8), s.rng.choice((7, *EDGES)))
    s.say("alter", last, shapes.packed(shapes.good_record(s.rng, last)))
    s.look("entries", "pin entries", "image")


def bigger(s):
    """A board of over 512 lines through the calls that search little, with good arguments and with bad ones, and lent lengths one off."""
    s.load(shapes.bigger(s.rng))
    n = s.board.lines
    for bad in (0, 0, 0.2, 0.6):
        fault, pattern, partial = s.mixed_arguments(bad)
        s.rows(pattern, *fault)
        s.judge(pattern, *fault)
        s.say("find", s.fault(*fault))
        s.five(*partial, *fault)
        s.say("put good", bytes(s.stuck() for _ in range(n)))
        s.refresh(fault[0], pattern)
    s.say("show", s.rng.choice(("good", "faulty")), s.rng.choice((n - 1, n, MOST_LINES - 1, s.line())))
    s.say("lend rows", *s.rng.choice(((n + 1, n), (n, n - 1), (n - 1, n), (512, 512))))
    s.rows(s.pattern(), *s.any_fault())
    s.refresh(s.line(), s.pattern())
    s.five(*s.partial(), *s.any_fault())
    for book, pins in ((1, 0), (-1, -1), (0, 1)):
        s.say("lend book", 2 * n + book)
        s.say("lend pins", 8 * n + pins)
        s.look(*["book"] * (book != 0), *["pin book"] * (pins != 0))
        s.say("alter", n - 1, shapes.packed(s.board.records[-1]))
    s.look("check")


def hall(s):
    """The sample board of a hall through the calls that search nothing, and alterations of its last line, a spare gate, which touch nothing."""
    s.load(shapes.Board(make.HALL_RECORDS, make.HALL_OUTPUTS))
    for _ in range(2):
        s.rows(s.pattern(), *s.any_fault())
        s.judge(s.pattern(), *s.any_fault())
        s.five(*s.partial(), *s.any_fault())
        s.refresh(s.line(), s.pattern())
    plant_entries(s)
    s.say("alter", s.board.lines - 1, shapes.packed(shapes.gate(s.rng, 0, s.board.lines - 1)))
    s.look("entries", "pin entries", "image")


def bigger_books(s):
    """Both books of a board of over 512 lines, whole, before alterations of it and after them."""
    s.load(shapes.bigger(s.rng, 650))
    s.look("book", "entries", "pin book", "pin entries")
    for line, record in ((s.gate(), None), (s.board.lines - 1, None), (s.gate(), make.record(make.INPUT)), (s.bad_line(), make.record(make.NOT, 0))):
        plant_entries(s)
        s.say("alter", line, record or shapes.packed(shapes.good_record(s.rng, line)))
    s.look("entries", "pin entries", "image", "book", "entries", "pin book", "pin entries")


def bigger_drawings(s):
    """A board of over 512 lines drawn and read again: through a target and by a file. A text of over 65,536 bytes can come from a file alone."""
    s.load(shapes.bigger(s.rng))
    text, path = drawings.drawing(s.board), s.rng.choice(EXPORTED)
    for lent in (len(text), len(text) - 1):
        s.say("lend target", lent)
        s.write()
    s.say("export", path)
    s.load(shapes.small(s.rng))
    s.say("import", path)
    s.look("image")
    board = shapes.bigger(s.rng, 900)
    for short in (1, 0):
        s.say("lend target", len(board.image()) - len(board.note) - short)
        s.read(drawings.drawing(board))


def early_patterns(s):
    """Boards of over 24 inputs where an early pattern shows every fault that is asked for or touched; and inputs and ties, which have no pins."""
    s.load(shapes.early(s.rng))
    for _ in range(3):
        line, stuck = s.rng.randrange(s.board.inputs, s.board.lines), s.stuck()
        pin = s.pin(line)
        for fault in ((line, stuck), (line, stuck, pin), (s.board.records[line][1][pin], stuck)):
            s.say("find", s.fault(*fault))
        plant_entries(s)
        record = early_record(s, line)
        s.say("alter", line, shapes.packed(record))
        s.look("entries", "pin entries")
        s.board.records[line] = record
        bad = s.rng.choice(((s.bad_line(), stuck), (line, s.bad_stuck()), (line, stuck, s.bad_pin(line))))
        s.say("find", s.fault(*bad))
        s.say("alter", line, s.rng.choice((make.record(make.INPUT), make.record(make.NOT, line), make.record(make.AND, 0), make.record(make.TIE0, 0),
                                           make.record(11))))
    for pattern in (s.pattern(), s.bad_pattern(), s.rng.choice((2**63, TOP))):
        s.judge(pattern, *s.any_fault())
        s.rows(pattern, *s.any_fault())
    s.say("lend target", 1_000)
    s.write()
    s.say("lend book", 2 * s.board.lines - 1)
    s.say("lend pins", 8 * s.board.lines + 1)
    s.look("book", "pin book", "entries", "pin entries")
    ties = [(s.rng.choice(shapes.TIES), ()) for _ in range(s.rng.choice((0, 0, 1, 3)))]
    s.load(shapes.Board([shapes.INPUT] * s.board.inputs + ties, [s.board.inputs - 1]))
    s.look("pin book", "pin entries")


def early_record(s, line):
    """Another record for a gate of such a board: an input that it no longer reads is read by another gate."""
    others = {pin for other, (_, pins) in enumerate(s.board.records) if other != line for pin in pins}
    while True:
        kind = s.rng.choice(shapes.PINNED)
        pins = tuple(s.rng.sample(range(7), shapes.pin_count(s.rng, kind)))
        if others.union(pins).issuperset(s.board.records[line][1]):
            return kind, pins


def refusals(s):
    """Calls with some arguments and lent lengths bad, alone and together, so that the order of the tests shows."""
    s.load(s.rng.choice((shapes.small, shapes.small, shapes.middle, shapes.wide))(s.rng))
    n = s.board.lines
    for _ in range(10):
        if s.rng.random() < 0.4:
            s.say("lend rows", length_near(s.rng, n), length_near(s.rng, n))
        if s.rng.random() < 0.4:
            s.lend_books()
        any_call(s, s.rng.choice((0.1, 0.3, 0.6)))


def every_refusal(s):
    """Each refusal of each call alone, at its boundary."""
    s.load(shapes.small(s.rng))
    n, (line, stuck, pin), pattern, partial = s.board.lines, s.any_fault(), s.pattern(), s.partial()
    for bad in ((s.bad_line(), stuck, pin), (line, s.bad_stuck(), pin)):
        s.rows(pattern, *bad)
        s.judge(pattern, *bad)
        s.find(*bad)
        s.five(*partial, *bad)
    for bad in (lambda: s.rows(s.bad_pattern(), line, stuck, pin), lambda: s.judge(s.bad_pattern(), line, stuck, pin),
                lambda: s.alter(s.bad_line(), a_record(s, line)), lambda: s.alter(line, shapes.bad_record(s.rng, line)),
                lambda: s.alter(min(s.board.inputs, n - 1), make.record(make.INPUT)),
                lambda: s.refresh(s.bad_line(), pattern), lambda: s.refresh(line, s.bad_pattern()),
                lambda: s.refresh(n - 1, pattern), lambda: s.five(*s.bad_partial(), line, stuck, pin)):
        bad()
    s.say("lend rows", *s.rng.choice(((n + 1, n), (n, n + 1), (n - 1, n), (n, n - 1), (0, n), (n, 0))))
    s.rows(pattern, line, stuck, pin)
    s.refresh(line, pattern)
    s.five(*partial, line, stuck, pin)


def every_absent_pin(s):
    """Refusal 12 of each call alone, then with the tests before it and after it failing too."""
    s.load(shapes.small(s.rng))
    line, stuck, pattern, n = s.rng.choice((s.line(), s.gate())), s.stuck(), s.pattern(), s.board.lines
    absent = s.bad_pin(line)
    for bad in ((line, stuck, absent), (line, s.bad_stuck(), absent), (s.bad_line(), stuck, absent)):
        s.rows(pattern, *bad)
        s.judge(pattern, *bad)
        s.find(*bad)
        s.five(*s.partial(), *bad)
    s.judge(s.bad_pattern(), line, stuck, absent)
    s.rows(s.bad_pattern(), line, stuck, absent)
    s.five(*s.bad_partial(), line, stuck, absent)
    s.say("lend rows", n + 1, n)
    for pin in (absent, s.pin(line)):
        s.rows(s.rng.choice((pattern, s.bad_pattern())), line, stuck, pin)
        s.five(*s.rng.choice((s.partial(), s.partial(), s.bad_partial())), line, stuck, pin)


def every_book_length(s):
    """Book, pin book and Alter with each book lent too short, too long and as long as the other; Alter with 6, 9 and 10 at once."""
    s.load(shapes.small(s.rng))
    book, pins = 2 * s.board.lines, 8 * s.board.lines
    wrong_book, wrong_pins = s.rng.choice((0, 7, book - 1, book + 1)), s.rng.choice((0, 7, pins - 1, pins + 1))
    for lent_book, lent_pins in ((wrong_book, pins), (book, wrong_pins), (pins, book), (book, pins)):
        s.say("lend book", lent_book)
        s.say("lend pins", lent_pins)
        line = s.gate()
        s.alter(line, s.rng.choice((shapes.packed(s.board.records[line]), shapes.bad_record(s.rng, line))))
        s.alter(s.bad_line(), a_record(s, line))
        s.book()
        s.pin_book()


def every_call(s):
    """All calls once on whatever image is loaded, with a fault of each sort, and a look at what was lent."""
    s.say("lend rows", s.rng.choice((s.board.lines, 1)), s.board.lines)
    s.say("lend book", 2 * s.board.lines)
    s.say("lend pins", s.rng.choice((8, 2)) * s.board.lines)
    (line, stuck, _), pattern, partial = s.mixed_arguments(s.rng.choice((0, 0.5)))
    s.say("check")
    for pin in (None, s.rng.randrange(5)):
        s.rows(pattern, line, stuck, pin)
        s.judge(pattern, line, stuck, pin)
        s.find(line, stuck, pin)
        s.five(*partial, line, stuck, pin)
    s.say("lend target", s.rng.choice((0, 400)))
    for call in (s.book, s.pin_book, lambda: s.alter(line, a_record(s, line)), lambda: s.refresh(line, pattern), s.write):
        call()


def bad_image(s):
    """Images with a defect of each sort, and with several, through every call."""
    for defect in (*shapes.DEFECTS, shapes.several_defects):
        s.board = s.rng.choice((shapes.small, shapes.small, shapes.middle))(s.rng)
        s.say("load", defect(s.rng, s.board))
        s.look(*(look.decode() for look in LOOKS))
        every_call(s)


def bad_boards(s):
    """Many images with a defect, one after the other."""
    for _ in range(12):
        s.board = s.rng.choice((shapes.small, shapes.small, shapes.middle, shapes.large))(s.rng)
        s.say("load", s.rng.choice(shapes.DEFECTS + (shapes.several_defects,))(s.rng, s.board))
        s.say("check")


def damaged_image(s):
    """Good images with a byte or a bit changed, cut or made longer; then a call."""
    s.board = shapes.small(s.rng)
    image = s.board.image()
    for _ in range(6):
        s.say("load", shapes.damaged(s.rng, image))
        s.say("lend rows", s.board.lines, s.board.lines)
        s.look("pin entries")
        any_call(s, 0)


def random_image(s):
    """Random bytes as an image, then every call."""
    s.board = shapes.mixed(s.rng, s.rng.randint(1, 5), 3)
    for _ in range(4):
        s.say("load", shapes.random_bytes(s.rng))
    every_call(s)


def plant_entries(s):
    """Puts a few numbers, most of them wrong, in entries of both books, absent pins' too."""
    for _ in range(s.rng.randrange(3)):
        s.say("put entry", s.rng.randrange(2 * s.board.lines), s.rng.choice((0, 1, 99, *EDGES, 2**32, s.pattern())))
    for _ in range(s.rng.randrange(3)):
        s.say("put pin", s.rng.randrange(8 * s.board.lines), s.rng.choice((0, 1, 99, *EDGES, 2**32, s.pattern())))


def good_alteration(s, line):
    """Puts a good record in a gate's line, and then asks for a pin that it had before or has now."""
    before = s.pins(line)
    record = shapes.good_record(s.rng, line)
    if s.alter(line, shapes.packed(record)):
        s.board.records[line] = record
        fault = line, s.stuck(), s.rng.randrange(max(before, s.pins(line), 1))
        s.rng.choice((lambda: s.find(*fault), lambda: s.judge(s.pattern(), *fault), lambda: s.rows(s.pattern(), *fault),
                      lambda: s.five(*s.partial(), *fault)))()


def alterations(s):
    """A long run of alterations, accepted and refused, with wrong entries planted before; pin counts shrink and grow."""
    s.load(s.rng.choice((shapes.small, shapes.middle, shapes.some_islands, shapes.some_islands, shapes.late))(s.rng))
    if s.rng.random() < 0.7:
        s.book()
        s.pin_book()
    for _ in range(s.rng.randint(4, 16)):
        plant_entries(s)
        line = s.gate() if s.rng.random() < 0.85 else s.rng.choice((s.line(), s.bad_line()))
        if s.board.inputs <= line < s.board.lines and s.rng.random() < 0.7:
            good_alteration(s, line)
        else:
            s.alter(line, a_record(s, line))
    s.book()
    s.pin_book()


def gate_by_output(s):
    """A gate's line: any, or one that reaches the first output or, more often, the last, where there is one."""
    last = len(s.board.outputs) - 1
    bit = 1 << s.rng.choice((0, last, last))
    gates = [line for line, bits in enumerate(s.board.reached()) if line >= s.board.inputs and bits & bit]
    return s.rng.choice(gates) if gates and s.rng.random() < 0.75 else s.gate()


def few_shared(s):
    """Alterations on boards whose lines share few of their many outputs, at times with fresh books, so that every touched entry shows."""
    s.load(shapes.strands(s.rng))
    for _ in range(8):
        line = gate_by_output(s)
        record = shapes.good_record(s.rng, line)
        after = s.board.altered(line, record)
        entries = sum(2 + 2 * len(pins) for (_, pins), outputs in zip(after.records, shapes.shared(s.board, after, line)) if any(outputs))
        if entries <= FEW and s.afford(s.board.cost(entries)):
            if s.rng.random() < 0.5:
                s.say("lend book", 2 * s.board.lines)
                s.say("lend pins", 8 * s.board.lines)
            plant_entries(s)
            s.say("alter", line, shapes.packed(record))
            s.look("entries", "pin entries", "image")
            s.board = after


def bench_sheet(s):
    """The alterations of T and H on the bench sheet, and S with its line 4 and that line's pins."""
    for image, line, record in ((make.T, 2, make.record(make.AND, 0, 1)), (make.H, 3, make.record(make.NOT, 1)),
                                (make.S, 4, make.record(make.OR, 1, 2))):
        s.say("load", image)
        s.look("book", "entries", "pin book", "pin entries")
        s.say("put entry 0", s.rng.choice((99, *EDGES)))
        s.say("put pin", s.rng.choice((0, 8 * line + s.rng.randrange(8), 16)), s.rng.choice((99, *EDGES)))
        for pin in (None, 0, 1, 2):
            s.say("find", s.fault(line, s.stuck(), pin))
        s.say("alter", line, record)
        s.look("entries", "pin entries", "image")


def refreshes(s):
    """Refresh on right rows, on wrong bytes 0 and 1, and on bytes over 1 before and after the line."""
    s.load(s.rng.choice((shapes.small, shapes.middle, shapes.middle, shapes.large))(s.rng))
    pattern = s.pattern()
    for _ in range(6):
        s.say("rows", pattern, s.fault(*s.any_fault()))
        line = s.rng.choice((s.line(), s.line(), 0, s.board.lines - 1))
        row = bytearray(s.rng.randrange(2) for _ in range(s.board.lines))
        if s.rng.random() < 0.6:
            at = s.rng.choice((line, line, max(line - 1, 0), s.rng.randrange(s.board.lines)))
            row[at] = s.rng.choice((2, 3, 9, 128, 255))
        if s.rng.random() < 0.8:
            s.say("put good", bytes(row))
        s.refresh(line, s.rng.choice((pattern, s.pattern())))
        s.say("show good", line)


def five_values(s):
    """Partial patterns and faults on boards with gates that meet again; a pin's D seldom comes through, and so has whole patterns too."""
    s.load(s.rng.choice((shapes.small, shapes.small, shapes.middle, shapes.large))(s.rng))
    inputs = s.board.inputs
    for _ in range(12):
        named = s.rng.getrandbits(inputs)
        s.five(named, named & s.rng.getrandbits(inputs), *s.any_fault())
    for _ in range(4):
        s.five((1 << inputs) - 1, s.pattern(), *s.pin_fault())
    s.five((1 << inputs) - 1, s.pattern(), s.line(), s.stuck())
    s.five(0, 0, *s.any_fault())


def exclusive_ors(s):
    """Exclusive-ors of three and four pins: both books, faults of their lines and of each pin, x on each pin by itself, and an alteration."""
    s.load(shapes.exclusive_ors(s.rng))
    s.book()
    s.pin_book()
    every = (1 << s.board.inputs) - 1
    for line, pins in s.board.exclusive_ors():
        for pin in (None, *range(len(pins))):
            fault = line, s.stuck(), pin
            s.find(*fault)
            s.judge(s.pattern(), *fault)
            s.rows(s.pattern(), *fault)
            s.five(*s.partial(), *fault)
        for below in pins:
            if below < s.board.inputs:
                named = every & ~(1 << below)
                s.five(named, named & s.pattern(), *s.any_fault())
    good_alteration(s, s.gate())


def gate_tables(s):
    """Every gate on every choice of pins from five lines that hold 0, 1, x, D and D-bar: the whole five-value table, on boards of 4,096 lines."""
    pins = [chosen for count in (2, 3, 4) for chosen in itertools.product(range(5), repeat=count)]
    gates = [(kind, ()) for kind in shapes.TIES] + [(kind, (pin,)) for kind in (1, 2) for pin in range(5)]
    gates += [(kind, chosen) for kind in range(3, 9) for chosen in pins]
    s.rng.shuffle(gates)
    most = MOST_LINES - 5
    gates += s.rng.choices(gates, k=-len(gates) % most)
    for start in range(0, len(gates), most):
        records = [shapes.INPUT] * 4 + [(make.NOT, (3,))] + gates[start:start + most]
        s.load(shapes.Board(records, sorted(s.rng.sample(range(len(records)), 64))))
        s.five(0b1011, 0b1010, 3, 0)
        s.rows(s.pattern(), 3, s.stuck())
        for _ in range(4):
            s.five(0b1011, 0b1010, *s.pin_fault())
            s.rows(s.pattern(), *s.pin_fault())


# lines tied to a rail

def every_call_of(s, *faults):
    """Each call that takes a fault, with each of these."""
    for fault in faults:
        s.find(*fault)
        s.judge(s.pattern(), *fault)
        s.rows(s.pattern(), *fault)
        s.five(*s.rng.choice(((0, 0), s.partial())), *fault)


def ties(s):
    """A board with ties: both books, its ties at 0 and at 1 and by pins that they do not have, gates with a tied leg by line and by pin, and each in x."""
    s.load(s.rng.choice((shapes.tied, shapes.tied, shapes.tied, shapes.ties_only, shapes.rails))(s.rng, s.rng.randint(1, 4), s.rng.randint(1, 7)))
    s.book()
    s.pin_book()
    board = s.board
    rails = [line for line, record in enumerate(board.records) if shapes.is_tie(record)]
    for line in s.rng.sample(rails, min(len(rails), 2)):
        every_call_of(s, (line, 0), (line, 1), (line, s.stuck(), s.bad_pin(line)))
        s.five(0, 0, line, s.stuck())
        s.refresh(line, s.pattern())
    legs = [(line, pin) for line, (_, pins) in enumerate(board.records) for pin, below in enumerate(pins) if below in rails]
    for line, pin in s.rng.sample(legs, min(len(legs), 3)):
        every_call_of(s, (line, s.stuck()), (line, 0, pin), (line, 1, pin))
    s.say("lend target", 5_300)
    s.write()
    s.read(drawings.drawing(board))


def tied_legs(s):
    """Gates of every kind and pin count with legs tied high and low at every place, their other legs at 0, 1, x, D and D-bar."""
    records = [shapes.INPUT] * 4 + [(make.NOT, (3,)), (make.TIE0, ()), (make.TIE1, ())]
    pins = [chosen for count in (2, 3, 4) for chosen in itertools.product(range(7), repeat=count) if {5, 6}.intersection(chosen)]
    records += [(kind, (pin,)) for kind in (1, 2) for pin in (5, 6)] + [(s.rng.randrange(3, 9), chosen) for chosen in s.rng.sample(pins, 300)]
    s.load(shapes.Board(records, sorted(s.rng.sample(range(len(records)), 64))))
    for fault in ((3, 0), (3, 1), (5, 1), (6, 0), s.pin_fault(), s.pin_fault(), (s.rng.choice((5, 6)), s.stuck(), s.rng.randrange(4))):
        s.five(0b1011, 0b1010, *fault)
        s.rows(s.pattern(), *fault)


def another_record(s, line):
    """A good record for a gate's line: where it is a tie the other tie, the same one or a gate with pins, and else a tie."""
    kind = s.board.records[line][0]
    if kind not in shapes.TIES:
        return s.rng.choice(shapes.TIES), ()
    return s.rng.choice(((kind, ()), (make.TIE0 + make.TIE1 - kind, ()), shapes.gate(s.rng, 0, line, s.rng.choice(shapes.PINNED))))


def bad_tie(rng):
    """Ten bytes of a tie that is bad at any line, by its count or by a pin; or of a kind just over the highest."""
    data = bytearray(make.record(rng.choice((*shapes.TIES, *shapes.TIES, 11)), *[0] * rng.choice((0, 0, 1, 2, 3, 4))))
    if data[1] == 0 and rng.random() < 0.2:
        data[1] = rng.choice((5, 128, 255))
    elif data[1] == 0:
        data[rng.randrange(2, 10)] = rng.choice((1, 255))
    return bytes(data)


def tied_alterations(s):
    """Gates altered to ties and ties to gates, to the other tie and to themselves, with wrong entries planted before; and ties that may not stand."""
    s.load(s.rng.choice((shapes.tied, shapes.tied, shapes.mixed, shapes.islands))(s.rng, s.rng.randint(2, 4), s.rng.randint(2, 8)))
    s.book()
    s.pin_book()
    for _ in range(8):
        plant_entries(s)
        line = s.rng.randrange(s.board.inputs, s.board.lines)
        record = another_record(s, line)
        if s.alter(line, shapes.packed(record)):
            s.board.records[line] = record
        s.find(line, s.stuck(), s.rng.choice((None, 0, 1)))
        if s.rng.random() < 0.6:
            s.alter(s.rng.choice((line, s.gate())), s.rng.choice((bad_tie(s.rng), bad_tie(s.rng), make.record(make.INPUT))))
    s.alter(s.rng.randrange(s.board.inputs), make.record(s.rng.choice(shapes.TIES)))
    s.book()
    s.pin_book()


def tied_images(s):
    """Ties that are bad by their count and by each pin, at line 0 with right and wrong fields, and with an input after them; and kinds over 10."""
    s.board = shapes.tied(s.rng, s.rng.randint(1, 3), 2)
    image, line = s.board.image(), s.rng.randrange(s.board.inputs, s.board.lines)
    at, first = s.board.record_at(line), s.board.record_at(0)
    one_pin = [make.changed(make.record(s.rng.choice(shapes.TIES)), place + s.rng.randrange(2), b"\1") for place in range(2, 10, 2)]
    for data in (*one_pin, bad_tie(s.rng), bad_tie(s.rng), make.record(11), make.record(255), make.record(11, 0)):
        s.say("load", make.changed(image, at, data))
    for data in (*map(make.record, shapes.TIES), bad_tie(s.rng), shapes.packed(shapes.gate(s.rng, 0, 1, s.rng.choice(shapes.PINNED))), make.record(11)):
        s.say("load", make.changed(image, first, data))
    few = [shapes.INPUT] * s.rng.randint(1, 3)
    for kind in shapes.TIES:
        s.say("load", shapes.Board([*few, (kind, ()), shapes.INPUT], [0]).image())
        s.load(shapes.Board([*few, (kind, ())], [len(few)], shapes.a_note(s.rng)))
    s.book()


def tied_drawings(s):
    """Drawings with ties, good ones and near ones, at a gate's place and at line 0; and one cut at every byte."""
    s.load(s.rng.choice((shapes.tied, shapes.ties_only))(s.rng, s.rng.randint(1, 2), s.rng.randint(1, 2)))
    s.say("lend target", 200)
    text = drawings.drawing(s.board)
    s.read(text)
    s.write()
    for statement in s.rng.sample(drawings.NEAR_TIES, 24):
        before = s.rng.choice((b"", b"OUTPUT(n0)\n", b"INPUT(n0)\nOUTPUT(n0)\n", b"INPUT(n0)\nOUTPUT(n1)\n"))
        s.read(before + b"n%d = " % before.count(b"INPUT") + statement + s.rng.choice((b"", b"", b"n9", b"\n")))
    for kind, pins in ((make.TIE0, ()), (make.TIE1, ()), shapes.gate(s.rng, 0, 9, s.rng.choice(shapes.PINNED))):
        s.read(drawings.drawing(shapes.Board([(kind, pins), *s.board.records[s.board.inputs:]], [0])))
    last = text.rindex(b"n", 0, text.rindex(b" = "))
    for end in range(last, len(text) + 1):
        s.say("read", text[:end])
    s.look("target")


# what is no command

WORDS = ("", "-", "x", "-1", "+1", "0x10", "1.5", "1e3", "18446744073709551616", "18446744073709551625", "99999999999999999999",
         "340282366920938463463374607431768211456", "0g", "0", "000", "00 00", "G0", "/", "/0", "4/", "4//0", "4/0/1", "4.0/1",
         "4.", ".0/1", "4./1", "4.0", "4.0/", "4.0.1/1", "4..0/1", "4.+0/1", "4.-0/1", "4.18446744073709551616/1",
         "4.0/18446744073709551616", "99999999999999999999.0/1", "4 .0/1", "4/.0/1", "4/0.1", " 4/0", "4/+0", "4/-0",
         "4/18446744073709551616", "99999999999999999999/0", "\t", "4\t", "\r", "4/0\r", "4.0/1\r", "all", "book", "pin", "pins")
FILE_WORDS = ("open", "save", "import", "export")


def valid_commands(s):
    """A command of each sort, most of them good for the board."""
    line = s.line()
    calls = [text for fault in (s.fault(s.line(), s.stuck()), s.fault(s.gate(), s.stuck(), s.rng.randrange(2)))
             for text in (f"rows {s.pattern()} {fault}", f"judge {s.pattern()} {fault}", f"find {fault}", f"five 1 0 {fault}")]
    return ["load " + s.board.image().hex(), "load -", "image", "check", "entries", "help", "book", *["pin book", "pin entries"] * 2,
            "lend rows 3 4", "lend book 6", "lend pins 24", "put good 0001", "put faulty -", f"put entry {line} 5", f"put pin {line} 5",
            *calls, f"alter {line} {shapes.packed(shapes.gate(s.rng, 0, line + 1)).hex()}", f"refresh {line} {s.pattern()}",
            f"show good {line}", f"show faulty {line}", "open good.img", "save own.img", "lend target 60", "target",
            "read " + drawings.drawing(s.board).hex(), "write", "import board.txt", "export own.txt"]


def respaced(rng, text):
    """The command with a space too many, a tab or a carriage return, or in capitals."""
    at = rng.choice([i for i, c in enumerate(text) if c == " "] + [0, len(text)])
    rest = text[at + 1:] if text[at:at + 1] == " " else text[at:]
    return rng.choice((text[:at] + " " + text[at:], text[:at] + " " + text[at:], text + " ", " " + text, text + "\r", text[:at] + "\t" + rest,
                       text.upper(), text.capitalize(), text[:at] + rest, text.replace(" ", ",", 1)))


def malformed_command(rng, text):
    """The command with a word missing, added or unreadable, or with a strange byte in it."""
    words, way = text.split(" "), rng.randrange(8)
    if way < 2:
        return respaced(rng, text).encode()
    if way == 2 and len(words) > 1:
        return " ".join(words[:-1]).encode()
    if way in (3, 4) and len(words) > 1:
        words[rng.randrange(1, len(words))] = rng.choice([w for w in WORDS if not w.startswith("/") or words[0] not in FILE_WORDS])
        return " ".join(words).encode()
    if way == 5 and any(map(str.isdigit, words)):
        wide = str(rng.choice((2**64, 2**64 + 1, 10 * 2**64, 2**128, 2**64 + rng.randrange(2**63), 10**20)))
        return " ".join(wide if word.isdigit() and rng.random() < 0.7 else word for word in words).encode()
    if way == 6 and words[0] not in FILE_WORDS:
        data = bytearray(text.encode())
        data[rng.randrange(len(data))] = rng.choice((0, 11, 12, 127, 128, 195, 255, 58, 47, 64, 96, 103, 71))
        return bytes(data)
    return (text + " " + rng.choice(WORDS + ("0", "1"))).encode()


def no_command(rng):
    """A line without a command's name."""
    return rng.choice((b"", b" ", b"  ", rng.randbytes(rng.randint(1, 20)).replace(b"\n", b"?"), b"nothing", b"checks", b"chec"))


def malformed(s):
    """Lines that are no command, each with a look at something that must not have changed."""
    s.load(shapes.small(s.rng))
    s.rows(s.pattern(), *s.any_fault())
    s.say("lend target", s.rng.choice((0, 60, 400)))
    s.write()
    for text in valid_commands(s):
        s.commands.append(malformed_command(s.rng, text))
        s.look(s.rng.choice((*LOOKS, b"target")).decode())
    for _ in range(5):
        s.commands.append(no_command(s.rng))
        s.look(s.rng.choice((*LOOKS, b"target")).decode())
    s.say("help")


def lengths(s):
    """The console's own limits at the boundary: lent lengths, bytes to put and entries."""
    s.load(shapes.small(s.rng))
    n = s.board.lines
    for name, entries in (("put entry", 2 * n), ("put pin", 8 * n)):
        for place in (0, entries - 1, entries, s.rng.choice((2**32, 2**32 + 1, TOP))):
            s.say(name, place, s.rng.choice((5, 2**32, 2**32 + 5)))
            s.say(name, place, s.rng.choice((*EDGES, TOP + 1)))
    s.look("entries", "pin entries")
    s.say("lend rows", *s.rng.choice(((8192, 8192), (8193, 1), (1, 8193), (0, 0), (TOP, 1), (2**32, 2**32), (7, 8193))))
    s.say("put", s.rng.choice(("good", "faulty")), bytes(s.rng.choice((8191, 8192, 8193))))
    s.look("show good 8190", "show faulty 1")
    s.say("lend book", s.rng.choice((16384, 16385, 2**32, TOP, 0)))
    s.say("put entry", s.rng.choice((16383, 16384, 0)), 5)
    s.say("lend pins", s.rng.choice((65536, 65537, 16385, 2**32, TOP, 0)))
    s.say("put pin", s.rng.choice((65535, 65536, 16384, 0)), 5)
    s.look("entries", "pin entries")
    any_call(s, 0)


def long_lines(s):
    """Lines around 200,000 bytes, and images up to 65,536 bytes and over."""
    s.load(shapes.small(s.rng))
    for length in (199_999, 200_000, s.rng.choice((199_998, 200_001, 262_144, 400_001))):
        start = s.rng.choice((b"load ", b"check ", b"", b"put good ", b"show good "))
        s.commands.append(start + s.rng.choice((b"0", b" ", b"\xff")) * (length - len(start)))
        s.look("check", s.rng.choice(LOOKS).decode())
    if s.rng.random() < 0.4:
        image = s.board.image()
        s.say("load", bytes(s.rng.choice((65_536, 65_537, 41_356, 41_357, 65_535)) - len(image)) + image)
        s.look("check", "show good 0", "entries", "pin entries")


PATHS = ("good.img", "empty", "full", "large", "huge", "folder", "folder/", "missing", "missing/a.img", ".", "/", "/dev/null",
         "/dev/zero", "n" * 300, "n/" * 2600, "good.img\0x", "good.img/", "h\u00e9.img", "")
SAVED = ("a.img", "a.img", "folder/b.img", "./c.img", "h\u00e9.img")
EXPORTED = ("a.txt", "folder/b.txt", "./c.txt", "h\u00e9.txt")
NOT_SAVED = ("folder", "folder/", "missing/a.img", "/", ".", "n" * 300, "n/" * 2600, "good.img/", "a\0b", "/dev/full", "")


def files(s):
    """Images saved and opened again, good and bad, and files that are not there, are folders or are too large."""
    board = shapes.small(s.rng)
    s.load(board)
    s.say("save", s.rng.choice(NOT_SAVED))
    for defect in (None,) + shapes.DEFECTS:
        path = s.rng.choice(SAVED)
        if defect:
            s.say("load", defect(s.rng, board))
        s.say("save", path)
        s.say("load", s.rng.choice((make.T, make.H, b"", make.T + bytes(900))))
        s.say("open", s.rng.choice(PATHS))
        s.look(s.rng.choice(LOOKS).decode())
        s.say("open", path)
        s.look("image", "show good 0", "pin entries")


# drawings

def read_and_write(s):
    """Drawings of boards of every size, read and written: a target one byte short, just long enough, longer, and with the other in it."""
    for _ in range(2):
        s.load(drawings.any_board(s.rng))
        text, length = drawings.drawing(s.board), len(s.board.image()) - len(s.board.note)
        for right, call in ((length, lambda: s.read(text)), (len(text), s.write)):
            for lent in (right - 1, right, right + s.rng.choice((1, 2, 300))):
                s.say("lend target", lent)
                call()
        s.read(text)
        s.look("image")


def departures(s):
    """Drawings that depart from the form in its signs, words and numbers, and with their statements rearranged; and a good one last."""
    s.load(s.rng.choice((shapes.small, shapes.small, shapes.middle))(s.rng))
    parts, text = drawings.statements(s.board), drawings.drawing(s.board)
    s.say("lend target", s.rng.choice((5_300, len(s.board.image()), 0)))
    for place, other in s.rng.sample(drawings.SPOILS, 24):
        s.read(drawings.spoilt(s.rng, text, place, other))
    for _ in range(6):
        s.read(drawings.rearranged(s.rng, parts))
    s.read(text)
    s.look("image")


def cut_drawing(s):
    """A small drawing cut at every byte."""
    s.load(shapes.sheet(s.rng))
    s.say("lend target", 60)
    text = drawings.tiny(s.rng)
    for end in range(len(text) + 1):
        s.say("read", text[:end])
        if text[end - 1:end] == b"\n":
            s.look("target")
    s.look("target", "image")


def changed_drawing(s):
    """A small drawing with each byte left out, doubled or changed, or another put before it, one at a time."""
    s.load(shapes.sheet(s.rng))
    s.say("lend target", 80)
    text = drawings.tiny(s.rng)
    for at in range(len(text)):
        s.say("read", drawings.changed(s.rng, text, at))
        if s.rng.random() < 0.2:
            s.look("target")
    s.look("target", "image")


def random_drawings(s):
    """Random texts, of bytes and of pieces of statements."""
    s.load(shapes.sheet(s.rng))
    s.say("lend target", 100)
    for _ in range(12):
        s.read(drawings.random_text(s.rng))


def boards_named(s):
    """Boards named that break each of document 01's rules: alone, with a departure behind them, and with a target too short."""
    s.load(shapes.small(s.rng))
    for rule in s.rng.sample(drawings.RULES, 5):
        text = drawings.drawing(rule(s.rng, s.board))
        s.say("lend target", s.rng.choice((5_300, 100, len(s.board.image()))))
        s.read(text)
        if len(text) > 50_000 and s.rng.random() < 0.7:
            continue
        s.read(s.rng.choice((text[:-1], text + b" ", text + b"\n", text + b"OUTPUT(n65536)\n", b"\n" + text)))
        s.say("lend target", s.rng.choice((0, 1, 11, 43)))
        s.read(text)


def refused_drawings(s):
    """The writer on images with a defect of each sort, into a target and to a file that must stay as it is; a target too short comes last."""
    s.load(shapes.small(s.rng))
    path = s.rng.choice(EXPORTED)
    if s.rng.random() < 0.5:
        s.say("export", path)
    for defect in shapes.DEFECTS:
        s.say("lend target", s.rng.choice((0, 30, 5_000)))
        s.say("load", defect(s.rng, s.board))
        s.write()
        s.say("export", s.rng.choice((path, *NOT_SAVED)))
    s.say("import", path)
    s.look("image")


def drawing_files(s):
    """Drawings exported and imported again, their notes lost; refused ones, which change nothing; files that cannot be read or written."""
    board, path = shapes.small(s.rng), s.rng.choice(EXPORTED)
    s.load(board)
    s.say("lend target", 50)
    s.say("export", path)
    s.say("load", s.rng.choice((make.T, make.H, b"", make.T + bytes(900))))
    s.say("import", path)
    s.look("image", "show good 0", "entries", "pin entries")
    texts = [drawings.drawing(rule(s.rng, board)) for rule in drawings.FEW_RULES]
    for text in (*texts, drawings.random_text(s.rng), drawings.changed(s.rng, drawings.drawing(board), 0)):
        s.say("load", text)
        s.say("save", path)
        s.load(board)
        s.say("import", path)
        s.look(s.rng.choice(LOOKS).decode(), "image")
    s.say("export", s.rng.choice((*EXPORTED, *NOT_SAVED)))
    for other in (path, s.rng.choice(PATHS)):
        s.say("import", other)
        s.look("target", s.rng.choice(LOOKS).decode())


def drawing_lengths(s):
    """The console's own limits for drawings at the boundary: the target's length and the bytes read."""
    s.load(shapes.sheet(s.rng))
    s.say("lend target", s.rng.choice((262_145, 262_145, 2**32, TOP, 262_143)))
    s.say("read", drawings.exactly(s.rng.choice((65_536, 65_537))))
    if s.rng.random() < 0.2:
        s.say("lend target", 262_144)
        s.write()
    s.say("lend target", 0)
    s.read(drawings.drawing(s.board))
    s.read(b"")
    s.write()


def large_drawings(s):
    """Drawings of 4,096 lines and of one more, of 65,537 inputs, lines and outputs, and of up to 1,048,576 bytes and one more, from files."""
    s.load(shapes.small(s.rng))
    for path in (*s.rng.sample(drawings.LARGE, 2), s.rng.choice(drawings.LONGEST)):
        s.say("import", path)
        s.look("check", "image")


# the parts that every script begins and ends with, and each sort of part between them and how often it comes
FIRST = (before_load, gate_tables)
LAST = ((ties, tied_legs, tied_alterations, tied_images, tied_drawings, exclusive_ors) + (few_shared,) * 3
        + (refused_drawings, drawing_files, large_drawings, bigger, hall, bigger_books) + (bigger_drawings,) * 2
        + (early_patterns, early_patterns, many_inputs, bigger))
PARTS = {
    exhaustive: 6, every_row: 6, largest: 2, many_inputs: 3, bigger: 1, early_patterns: 1, refusals: 8, every_refusal: 5,
    every_absent_pin: 4, every_book_length: 4, bad_image: 4, bad_boards: 5, damaged_image: 5, random_image: 3, alterations: 10,
    bench_sheet: 2, refreshes: 5, five_values: 5, malformed: 8, lengths: 4, long_lines: 3, files: 5, read_and_write: 3, departures: 4,
    cut_drawing: 1, changed_drawing: 2, random_drawings: 2, boards_named: 3, refused_drawings: 3, drawing_files: 2, drawing_lengths: 2,
    ties: 4, tied_alterations: 3, tied_images: 2, tied_drawings: 2,
}


@functools.lru_cache(maxsize=12)
def script(seed, commands):
    """A script of at least so many commands; the same seed gives the same script."""
    s = Script(seed)
    sorts, weights = list(PARTS), list(PARTS.values())
    for part in FIRST:
        s.add(part)
    while len(s.commands) < commands:
        s.add(s.rng.choices(sorts, weights)[0])
    for part in LAST:
        s.add(part)
    return s
