"""Books timed at the console: ours and the obvious way's, with every answer of the two compared; and other calls of ours on boards of two sizes.

A program is started, takes the board, and is then asked for the same book again and again, so that its start does not count. Seconds are
those that the program has the processor, so that nothing else on the machine counts; both programs run in one thread. Where the
obvious way would take too long its time is worked out by one rule: the seconds that it takes for a pattern, measured over the first
patterns of every fault, times the number of patterns that it would try. That number is known from the finished book: for a fault with
an entry the entry and 1 more, for one with none every pattern of the board.
"""
import dataclasses
import math
import subprocess
import time

from shapes import NONE, packed

# the two books: the command that fills one and the command that lists it
BOOKS = ("book", "entries"), ("pin book", "pin entries")
# how often a book is filled in one round at most, so that all answers fit a pipe
MOST = 2_000
# patterns in all in the first look, by which it is decided what can be run whole, and how large a part else
LOOK = 20_000


@dataclasses.dataclass
class Pace:
    """Seconds that the obvious way may take for a whole book, and for a part of one; a quick book is filled again until a round takes
    `enough` seconds, and the best of some rounds counts."""
    whole: float = 30
    part: float = 1
    enough: float = 0.3
    rounds: int = 3


QUICK = Pace(whole=0.5, part=0.1, enough=0.05, rounds=2)
# how often calls are timed on boards of two sizes in turn, so that what else the machine does falls on both
TURNS = 4


class Differs(Exception):
    """Two answers that should be the same are not."""


class Console:
    """A program that answers the console's commands, as long as it is used in a `with`."""

    def __init__(self, words):
        """Starts the program."""
        self.process = subprocess.Popen(words, stdin=subprocess.PIPE, stdout=subprocess.PIPE, text=True)
        # Linux's number for the clock of another process
        self.clock = ~self.process.pid << 3 | 2

    def __enter__(self):
        """The console itself."""
        return self

    def __exit__(self, *_):
        """Ends the program."""
        self.process.kill()
        self.process.communicate()

    def ask(self, command, times=1):
        """The seconds that a command takes, so many times over, and its last answer."""
        start = time.clock_gettime(self.clock)
        try:
            self.process.stdin.write(f"{command}\n" * times)
            self.process.stdin.flush()
        except BrokenPipeError:
            raise Differs(f"the program ended before {command[:20]!r}") from None
        answers = [self.process.stdout.readline() for _ in range(times)]
        if not answers[-1]:
            raise Differs(f"the program ended at {command[:20]!r}")
        return time.clock_gettime(self.clock) - start, answers[-1].rstrip("\n")

    def once(self, command, pace):
        """The seconds that a command takes one time, over as many times as it needs to be measured well, and its answer."""
        seconds, answer = self.ask(command)
        if seconds < pace.enough:
            times = min(MOST, int(pace.enough / max(seconds, 1e-6)) + 1)
            seconds = min(self.ask(command, times)[0] for _ in range(pace.rounds)) / times
        return seconds, answer


@dataclasses.dataclass
class Book:
    """A book as it was timed: how many faults it is for, how many of them have none, and seconds; the obvious way's may be worked out."""
    faults: int
    none: int
    obvious: float
    ours: float
    worked_out: bool
    # the seconds by the rule over those of the whole, where both were measured
    rule: float = None

    def joined(self, other):
        """Two books as one."""
        return Book(self.faults + other.faults, self.none + other.none, self.obvious + other.obvious, self.ours + other.ours,
                    self.worked_out or other.worked_out)


def same(what, ours, obvious):
    """Ends the run where two answers differ."""
    if ours != obvious:
        raise Differs(f"{what}: ours {str(ours)[:200]!r}, the obvious way {str(obvious)[:200]!r}")


def numbers(answer):
    """The entries that an answer lists."""
    return [int(word) for word in answer.split()[1:]]


def tried(entries, patterns, most):
    """How many patterns the obvious way tries for faults with these entries, at most so many for each."""
    return sum(min(entry + 1 if entry != NONE else patterns, most) for entry in entries)


def most_within(entries, patterns, total):
    """The highest number of patterns for each fault with which no more than so many are tried in all."""
    low, high = 1, patterns
    while low < high:
        middle = (low + high + 1) // 2
        low, high = (middle, high) if tried(entries, patterns, middle) <= total else (low, middle - 1)
    return low


class Asked:
    """One book of one board, which the console has filled: its entries, and those of them that are a fault's."""

    def __init__(self, names, board, used, said, listed):
        """`names` are the book's two commands, `used` says which entries are a fault's, and the others are the console's two answers."""
        (self.fill, self.list), self.said, self.listed = names, said, listed
        self.image, self.patterns = board.image().hex(), 1 << board.inputs
        self.entries = numbers(listed)
        self.faults = [entry for entry, is_used in zip(self.entries, used) if is_used]
        self.none = self.faults.count(NONE)
        same(f"{self.fill}, by its entries", said, f"found {len(self.faults) - self.none} of {len(self.entries)}")
        self.total = tried(self.faults, self.patterns, self.patterns)

    def whole(self, obvious, pace):
        """The obvious way's seconds for the whole book; its answers are compared."""
        seconds, answer = obvious.once(self.fill, pace)
        same(self.fill, self.said, answer)
        same(self.list, self.listed, obvious.ask(self.list)[1])
        return seconds

    def a_pattern(self, words, patterns):
        """The obvious way's seconds for a pattern, over some so many in all, as many for each fault; what it finds with them is compared."""
        most = most_within(self.faults, self.patterns, patterns)
        count = tried(self.faults, self.patterns, most)
        with Console([*words, "part", str(most)]) as obvious:
            obvious.ask(f"load {self.image}")
            seconds, answer = obvious.ask(self.fill)
            same(f"{self.fill} in part", f"tried {count} patterns", answer.partition(" in ")[0])
            same(f"{self.list} in part", [entry if entry < most else NONE for entry in self.entries], numbers(obvious.ask(self.list)[1]))
        return seconds / count


class Timing:
    """The two programs and the pace at which they are timed."""

    def __init__(self, product, obvious, pace):
        """`product` and `obvious` are the words that start the programs."""
        self.product, self.obvious, self.pace = product, obvious, pace

    def board(self, board):
        """The board's two books, timed and compared."""
        lines = [True] * 2 * board.lines
        pins = [pin < len(record[1]) for record in board.records for pin in range(4) for _ in range(2)]
        load = f"load {board.image().hex()}"
        with Console(self.product) as ours, Console(self.obvious) as obvious:
            same("load", ours.ask(load)[1], obvious.ask(load)[1])
            return [self.book(names, board, used, ours, obvious) for names, used in zip(BOOKS, (lines, pins))]

    def book(self, names, board, used, ours, obvious):
        """One book of a board: by the obvious way whole where there is time for that, and else in part."""
        seconds, said = ours.once(names[0], self.pace)
        asked = Asked(names, board, used, said, ours.ask(names[1])[1])
        guess = asked.a_pattern(self.obvious, LOOK)
        by_rule = lambda: asked.total * asked.a_pattern(self.obvious, self.pace.part / guess)
        if asked.total * guess > self.pace.whole:
            return Book(len(asked.faults), asked.none, by_rule(), seconds, True)
        slow = asked.whole(obvious, self.pace)
        return Book(len(asked.faults), asked.none, slow, seconds, False, by_rule() / slow if slow > 1 else None)


# calls on boards of one shape and two sizes

def calls(board):
    """A command for each call whose time is to be in proportion to the lines, and how its answer begins. The altered line reaches no output, before
    and after, so that no entry is touched and each is counted."""
    pattern, fault = (1 << board.inputs) * 2 // 3, f"{board.inputs}/0"
    idle = max(line for line, outputs in enumerate(board.reached()) if not outputs)
    kind, pins = board.records[idle]
    record = packed((kind - 1 if kind % 2 == 0 else kind + 1, pins)).hex()
    return {
        "Check": ("check", f"board {board.lines} lines"),
        "Rows": (f"rows {pattern} {fault}", "filled"),
        "Judge": (f"judge {pattern} {fault}", ("yes", "no")),
        "Five values": (f"five {pattern} {pattern} {fault}", "drives "),
        "Alter, nothing touched": (f"alter {idle} {record}", f"found {10 * board.lines} of {10 * board.lines}"),
    }


def grown(product, boards, pace):
    """For each call its seconds on each of some boards, the best of all turns."""
    best = {}
    for _ in range(TURNS):
        for place, board in enumerate(boards):
            with Console(product) as console:
                console.ask(f"load {board.image().hex()}")
                for name, (command, expected) in calls(board).items():
                    seconds, answer = console.once(command, pace)
                    if not answer.startswith(expected):
                        raise Differs(f"{command}: {answer[:200]!r}")
                    row = best.setdefault(name, [math.inf] * len(boards))
                    row[place] = min(row[place], seconds)
    return best
