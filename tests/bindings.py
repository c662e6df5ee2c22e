#!/usr/bin/env python3
"""The exported calls from C and Rust: the archive is proved and written, linked, and held to the papers' numbers.

Its last line is 'N passed, M failed'.
"""
import os
import re

import archive
import programs
from archive import ARCHIVE, ROOM, compiled, run
from counted import count, end
from programs import ROOT

CALLS = ("alter", "book", "check", "find", "five", "judge", "pin_book", "read", "refresh", "rows", "show", "write")

# the sheet of document 01, and rows and pin books worked out by hand
C_EXAMPLE = """\
check S: 0 12 4 1
find S 4/0: 0 0
find S 4/1: 0 6
judge S 7 4/1: 0 1
judge S 5 4/1: 0 0
rows S 6 4/1: 0
  good 0 1 1 0 0 1 1 0 0 0 0 0
  faulty 0 1 1 0 1 0 0 0 0 0 0 1
show the faulty row from 4: 0 4 8
  part 1 0 0 0 0 0 0 1
show the good row from 99: 0 12 0
find S 4.0/1: 0 0
find S 4.0/0: 0
find S 4.2/1: 12
judge S 0 4.0/1: 0 1
judge S 6 4.0/1: 0 0
rows S 0 4.0/1: 0
  good 0 0 0 0 1 0 0 1 0 1 0 1
  faulty 0 0 0 0 0 1 1 1 0 1 0 0
find T 0/0: 0
refresh T 1 from 1: 0
  row 1 0 1
five T 1/1 2/0: 0 1
  row 1 0 3
five T 1/0 1.0/1: 0 1
  row 0 3 3
book T: 0 2
  book none none 0 none 0 none
pin book T: 0 3
  pins of 0: none none none none none none none none
  pins of 1: none 0 none none none none none none
  pins of 2: 1 none 0 none none none none none
alter T 2: 0 5
  book none none none 1 none 0
  pins of 0: none none none none none none none none
  pins of 1: 1 none none none none none none none
  pins of 2: none 0 none 1 none none none none
find T 2/1: 0 0
write T: 0 50
INPUT(n0)
OUTPUT(n2)
n1 = NOT(n0)
n2 = OR(n0, n1)
read it: 0 44
  the same image
read it without its last line feed: 13 49
write T in 49 bytes: 14
book H: 0 8
  book 1 0 2 0 0 1 2 0
pin book H: 0 4
  pins of 0: none none none none none none none none
  pins of 1: none none none none none none none none
  pins of 2: 1 0 none none none none none none
  pins of 3: 2 0 none none none none none none
alter H 3: 0 13
  book 99 0 2 0 0 1 0 2
  pins of 0: none none none none none none none 99
  pins of 1: none none none none none none none none
  pins of 2: 1 0 none none none none none none
  pins of 3: 2 0 none none none none none none
alter H 0: 10
find rails 2/1: 0 0
find rails 2/0: 0
find rails 6.2/0: 0 2
find rails 3.0/0: 12
book rails: 0 14
  book 1 0 2 0 none 0 1 none 2 3 1 0 2 0 1 0
pin book rails: 0 15
alter rails 3: 0 10
  book none none none none none 0 none 1 none none none 0 none 0 none 0
"""
RUST_EXAMPLE = """\
check S: Good(Counts { lines: 12, inputs: 4, outputs: 1 })
find S 4/1: Pattern(6)
find S 4.0/1: Pattern(0)
find S 4.2/1: Refused(Pin)
judge S 7 4/1: Yes
judge S 7 4.0/1: No
rows S 6 4/1: Done [0, 1, 1, 0, 0, 1, 1, 0, 0, 0, 0, 0] [0, 1, 1, 0, 1, 0, 0, 0, 0, 0, 0, 1]
show the faulty row from 4: [1, 0, 0, 0, 0, 0, 0, 1]
refresh T 1 from 1: Done [1, 0, 1]
five T 1/1 2/0: Count(1) [1, 0, 3]
five T 1/0 1.0/1: Count(1) [0, 3, 3]
book T: Entries(2) [18446744073709551615, 18446744073709551615, 0, 18446744073709551615, 0, 18446744073709551615]
pin book T: Entries(3) [18446744073709551615, 0] [1, 18446744073709551615, 0, 18446744073709551615]
alter T 2: Entries(5) [18446744073709551615, 18446744073709551615, 18446744073709551615, 1, 18446744073709551615, 0]
its used pins: [1, 18446744073709551615] [18446744073709551615, 0, 18446744073709551615, 1]
write it: Bytes(51)
INPUT(n0)
OUTPUT(n2)
n1 = NOT(n0)
n2 = AND(n0, n1)
read that: Bytes(44), the same image: true
read it without its last line feed: Refused(Form(50))
find rails 2/1: Pattern(0)
find rails 2/0: Nothing
find rails 6.2/0: Pattern(2)
find rails 3.0/0: Refused(Pin)
books of rails: Entries(14) Entries(15)
alter rails 3: Entries(10)
"""


def compare(name, written, expected):
    """A check for each expected line, and one that nothing else is written."""
    lines, wanted = written.splitlines(), expected.splitlines()
    for i, line in enumerate(wanted):
        found = lines[i] if i < len(lines) else "nothing"
        count(name, found == line, f"expected {line!r}, found {found!r}")
    count(name, len(lines) == len(wanted), f"{len(lines)} lines for {len(wanted)}")


def symbols():
    """The archive defines the twelve calls and needs nothing but memcpy and memset."""
    listed = [line.split() for line in run("nm", ["nm", "-g", ARCHIVE]).splitlines() if re.search(r" [TU] ", line)]
    count("defined", {f"fortizembo_{c}" for c in CALLS} == {s[-1] for s in listed if s[-2] == "T"}, listed)
    count("needed", {s[-1] for s in listed if s[-2] == "U"} <= {"memcpy", "memset"}, listed)


def from_c():
    """The example's numbers, every refusal, every fault of board S, and boards of the most lines."""
    compare("C example", run("C example", [compiled("bindings/c/example.c"), ROOT / "boards"]), C_EXAMPLE)
    for source in ("tests/bindings.c", "tests/large.c"):
        written = run(source, [compiled(source), ROOT / "boards"])
        all_passed = re.search(r"^([0-9]+) passed, 0 failed\n\Z", written, re.MULTILINE)
        count(source, all_passed, written, int(all_passed[1]) if all_passed else 1)


def from_rust():
    """The wrapper's tests, and its example's numbers."""
    at = [*programs.CARGO, "--manifest-path", ROOT / "bindings/rust/Cargo.toml"]
    words = dict(os.environ, FORTIZEMBO_LIB=str(ARCHIVE.parent), CARGO_TARGET_DIR=str(ROOM / "rust"))
    written = run("Rust tests", ["cargo", "test", *at, "--test", "calls"], env=words)
    all_passed = re.search(r"test result: ok\. ([1-9][0-9]*) passed; 0 failed", written)
    count("Rust tests", all_passed, written, int(all_passed[1]) if all_passed else 1)
    compare("Rust example", run("Rust example", ["cargo", "run", *at, "--example", "calls"], env=words), RUST_EXAMPLE)


archive.build()
symbols()
from_c()
from_rust()
end()
