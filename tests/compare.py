#!/usr/bin/env python3
"""The console `bench` against the independent program: the same scripts through both, every answer compared.

    tests/compare.py                                  60,000 commands or more, as the gate runs it
    tests/compare.py --seed 7 --commands 2000000      millions of commands, from another seed

It prints how often each answer and each refusal of each command arose, of accepted alterations each sort of board, altered line and
touched line, of exclusive-ors of three and four pins each call with a fault there, x on each pin by itself and three pins at 1, of ties
each call with a fault there and at a leg that they hold, each alteration from and to them, each way in which they are bad, and their
drawings, of drawings where in a statement they departed from the form, and of boards of over 512 lines and of over 24 inputs each call,
accepted and refused. It fails where one of these arose fewer than 20 times. Its last line is 'N passed, M failed', where a part of a
script counts one.
"""
import argparse
import collections
import concurrent.futures
import functools
import re
import select
import shutil
import subprocess
import sys
import tempfile
from pathlib import Path

import drawings
import programs
import scripts
import shapes
from shapes import ROOT, make

ORACLE, PRODUCT = [programs.ORACLE, "console"], [programs.LAUNCHER, "bench"]
FAILURES = ROOT / "target/compare"
# commands in one run of a program, how often each answer must arise at least, and from how many commands on that is asked
SCRIPT, ENOUGH, ENOUGH_FROM = 5_000, 20, 20_000
TIMEOUT = 900
PAIRED = (b"lend", b"put", b"show", b"pin")
COMMANDS = ("load open save image lend put check rows judge find book alter refresh five show entries pin target read write import export "
            "help").split()
# commands whose last word is a fault; one on a pin has its own rows in the table
WITH_FAULT = (b"rows", b"judge", b"find", b"five")
ON_FAULT = [word.decode() + pin for word in WITH_FAULT for pin in ("", " pin")]
# the table's rows of exclusive-ors, by their pins
XORS = {n: f"xor of {n} pins" for n in (3, 4)}
IMAGE = [str(n) for n in range(1, 6)]
# the table's rows of lines tied to a rail
OF_TIES = {
    "a tie": [*(f"{word.decode()} at {stuck}" for word in WITH_FAULT for stuck in (0, 1)), *(f"{word.decode()} pin refused" for word in WITH_FAULT)],
    "a tie's row": ["0 beside x", "1 beside x", "D", "D-bar"],
    "a tied leg": [*ON_FAULT, *(f"pin {pin} at {value}" for pin in range(4) for value in (0, 1)), *(f"of kind {kind}" for kind in shapes.PINNED)],
    "a tie altered": ["gate to tie", "tie to gate", "to the other", "to itself", "to an input refused", "gate to bad tie refused",
                      "tie to bad tie refused", "to kind 11 refused", "input to tie refused"],
    "a bad tie": [*(f"field {field}" for field in range(1, 6)), "at line 0", "an input after it", "kind 11", "a gate at line 0"],
    "a drawn tie": ["read", "wrote", "saved", "at line 0", "a gate at line 0"],
}
# calls that the table counts on large boards too, accepted and refused; a book of many inputs takes too long to be filled
ON_LARGE = "rows judge find alter refresh five".split()
REFUSED_ON_LARGE = [f"{call} refused" for call in (*ON_LARGE, "book", "pin book")]
# where in the form a drawing departs from it, by what its last statement has begun with
DEPARTURES = {
    "before a statement": rb"",
    "in INPUT": rb"I[INPUT(n]*",
    "in an input's number": rb"INPUT\(n\d+",
    "in OUTPUT": rb"O[UTP(n]*",
    "in TIE": rb"n\d+ = TI?",
    "behind TIE": rb"n\d+ = TIE",
    "behind a tie's word": rb"n\d+ = TIE[01]",
    "in a tie's brackets": rb"n\d+ = TIE[01]\(",
    "in a gate's number": rb"n\d*",
    "around =": rb"n\d+ (= ?)?",
    "in a word": rb"n\d+ = [A-Z]+",
    "before a pin": rb"n\d+ = .*(\(|, ?)",
    "at a pin's number": rb"n\d+ = .*n",
    "in or behind a pin's number": rb"n\d+ = .*\d",
    "in or behind an output's number": rb"OUTPUT\(n\d+",
    "behind a bracket": rb".*\)",
}
# what each command can answer: forms of an accepted answer, then the refusals of its call, then '?'
CAN_ANSWER = {
    "load": ["board", *IMAGE, "?"],
    "open": ["board", *IMAGE, "? cannot read"],
    "save": ["saved", "?"],
    "image": ["image", "image -", "?"],
    "lend rows": ["lent", "?"],
    "lend book": ["lent", "?"],
    "lend pins": ["lent", "?"],
    "put good": ["lent", "?"],
    "put faulty": ["lent", "?"],
    "put entry": ["lent", "?"],
    "put pin": ["lent", "?"],
    "check": ["board", *IMAGE, "?"],
    "rows": ["filled", *IMAGE, "6", "7", "8", "9", "?"],
    "rows pin": ["filled", *IMAGE, "6", "7", "12", "8", "9", "?"],
    "judge": ["yes", "no", *IMAGE, "6", "7", "8", "?"],
    "judge pin": ["yes", "no", *IMAGE, "6", "7", "12", "8", "?"],
    "find": ["pattern", "none", *IMAGE, "6", "7", "?"],
    "find pin": ["pattern", "none", *IMAGE, "6", "7", "12", "?"],
    "book": ["found", *IMAGE, "9", "?"],
    "pin book": ["found", *IMAGE, "9", "?"],
    "alter": ["found", *IMAGE, "6", "9", "10", "?"],
    "refresh": ["filled", *IMAGE, "6", "8", "9", "11", "?"],
    "five": ["drives", "drives 0", *IMAGE, "6", "7", "8", "9", "?"],
    "five pin": ["drives", "drives 0", *IMAGE, "6", "7", "12", "8", "9", "?"],
    "show good": ["row", "row -", "?"],
    "show faulty": ["row", "row -", "?"],
    "entries": ["entries", "?"],
    "pin entries": ["pins", "?"],
    "lend target": ["lent", "?"],
    "target": ["target", "target -", "?"],
    "read": ["read", "13", "2", "4", "5", "14", "?"],
    "write": ["wrote", *IMAGE, "14", "?"],
    "import": ["board", "13", "2", "4", "5", "? cannot read", "?"],
    "export": ["saved", *IMAGE, "?"],
    "help": ["help", "?"],
    "no command": ["?", "? line too long"],
    "a bad record": [f"field {n}" for n in range(6)],
    "alter's 9": ["line book", "pin book", "both books"],
    "altered board": ["64 outputs", "an output is an input", "a line reaches none"],
    "altered line": ["reaches none", "is an output and reaches another"],
    "touched": ["by the first output only", "by the last only", "by the 64th only", "before only", "after only",
                *(f"through pin {pin} only" for pin in range(4))],
    "a pattern": ["of the first word", "of the first block", "of a later block"],
    "a departure": [*DEPARTURES, "at the end"],
    "> 512 lines": [*ON_LARGE, "book", "pin book", "write", "read", "import", "export", *REFUSED_ON_LARGE, "write refused"],
    "> 24 inputs": [*ON_LARGE, "pin book", "write", *REFUSED_ON_LARGE],
    "a limit": ["4096 lines", "4097 lines", "32 inputs", "a 33rd input"],
    "of 32 inputs": [f"a pattern of {bits} bits" for bits in (32, 33, 64)],
    "an entry put": [str(entry) for entry in scripts.EDGES],
    **OF_TIES,
    **{name: [*ON_FAULT, "three at 1", *(f"x on pin {pin} only" for pin in range(n))] for n, name in XORS.items()},
}
# rows of the table that say more of an answer that another row has counted
CLOSER = ("a bad record", "alter's 9", "altered board", "altered line", "touched", "a pattern", "a departure", "> 512 lines", "> 24 inputs",
          "a limit", "of 32 inputs", "an entry put", *OF_TIES, *XORS.values())
FIXED = (b"? line too long", b"? cannot read")


def command_name(command, answer):
    """The command's name in the table: with a second word where that belongs to it, or where its fault is on a pin."""
    if answer == b"? line too long":
        return "no command"
    words = command[:40].split(b" ")
    if words[0] in WITH_FAULT and b"." in command.rsplit(b" ", 1)[-1]:
        return words[0].decode() + " pin"
    name = b" ".join(words[:2] if words[0] in PAIRED else words[:1]).decode("latin-1")
    return name if name in CAN_ANSWER and name not in CLOSER else "no command"


def form(command, answer):
    """The form of an answer: a refusal's number, '?', or its first word, with its second where that tells forms apart."""
    words = answer[:40].decode("latin-1").split(" ")
    if words[0] == "refused":
        return words[1]
    if words[0] == "?":
        return answer.decode() if answer in FIXED else "?"
    if words[0].isdigit():
        return "pattern"
    if command == b"help":
        return "help"
    return " ".join(words[:2]) if words[1:] in (["-"], ["0"]) else words[0]


def readable(command):
    """Whether the words of a command are separated as they should be."""
    return b"" not in command.split(b" ") and not set(command) & set(b"\t\r")


def agree(command, expected, found):
    """Whether two answers are the same; reasons after '?' may differ unless the console's page settles them."""
    if command == b"help":
        return all(name.encode() in answer for name in COMMANDS for answer in (expected, found))
    if expected.startswith(b"? ") and found.startswith(b"? ") and len(found) > 2:
        settled = {expected, found} & set(FIXED) and readable(command)
        return not settled or expected == found
    return expected == found


def scratch(folder):
    """A folder with the files that scripts open."""
    folder.mkdir()
    (folder / "folder").mkdir()
    images = {"good.img": make.S, "empty": b"", "full": bytes(65_536), "large": bytes(65_537), "huge": bytes(300_000)}
    for name, data in (images | drawings.files()).items():
        (folder / name).write_bytes(data)
    return folder


def answers(program, script, folder, timeout=TIMEOUT, pieces=False):
    """What a program answers to a script in a folder, line by line, and what else went wrong; the script comes whole or in pieces."""
    with open(script, "rb") as given, open(folder.with_suffix(".out"), "wb") as out:
        way = {"input": given.read()} if pieces else {"stdin": given}
        try:
            status = subprocess.run(program, stdout=out, cwd=folder, timeout=timeout, **way).returncode
            trouble = f"exit status {status}" if status else None
        except subprocess.TimeoutExpired:
            trouble = f"no end within {timeout} s"
    lines = folder.with_suffix(".out").read_bytes().split(b"\n")
    return lines[:-1], trouble or (None if lines[-1] == b"" else "an answer without its line feed")


def left_behind(folder):
    """The files in a folder and their bytes."""
    return {p.relative_to(folder): p.read_bytes() if p.is_file() else None for p in folder.rglob("*")}


def cut(text, at=0):
    """Text short enough for a message, from a little before a place on."""
    start = max(0, at - 30)
    part = repr(text[start:start + 90])[2:-1]
    return (".. " if start else "") + part + (f" .. ({len(text)} bytes)" if start + 90 < len(text) else "")


def first_difference(script, part, expected, found):
    """The first command of a part whose answers differ, or none."""
    start, end = script.parts[part][0], [*script.parts, (len(script.commands), "")][part + 1][0]
    for k in range(start, end):
        if k >= len(found) or not agree(script.commands[k], expected[k], found[k]):
            return k
    return None


def described(seed, number, script, part, k, expected, found):
    """The words for a difference, and the part up to it, which shows it alone."""
    start, name = script.parts[part]
    wrong = found[k] if k < len(found) else b"no answer"
    at = next((i for i, (a, b) in enumerate(zip(expected[k], wrong)) if a != b), min(len(expected[k]), len(wrong)))
    words = (f"FAILED: seed {seed}, script {number}, command {k} (part {part}, {name})\n"
             f"  command:     {cut(script.commands[k])}\n  independent: {cut(expected[k], at)}\n"
             f"  product:     {cut(wrong, at)}")
    return words, b"\n".join(script.commands[start:k + 1]) + b"\n"


def held_against(seed, number, commands, product, oracle, timeout=TIMEOUT):
    """One script through both programs: parts that agree, words for each that does not, and the count of each form."""
    script = scripts.script(f"{seed}/{number}", commands)
    with tempfile.TemporaryDirectory() as room:
        path, ours, theirs = Path(room) / "script", scratch(Path(room) / "oracle"), scratch(Path(room) / "product")
        path.write_bytes(b"\n".join(script.commands) + b"\n")
        expected, trouble = answers(oracle, path, ours)
        if trouble or len(expected) != len(script.commands):
            return 0, [(f"FAILED: script {number}: the independent program: {trouble or len(expected)}", b"")], collections.Counter()
        found, trouble = answers(product, path, theirs, timeout, pieces=number % 2 == 1)
        failures = [(f"FAILED: script {number}: the product: {trouble}", b"")] if trouble else []
        if len(found) > len(expected) or left_behind(ours) != left_behind(theirs):
            failures.append((f"FAILED: seed {seed}, script {number}: answers too many, or other files left behind", b""))
    differences = [(part, first_difference(script, part, expected, found)) for part in range(len(script.parts))]
    failures += [described(seed, number, script, part, k, expected, found) for part, k in differences if k is not None]
    return len(script.parts) - sum(k is not None for _, k in differences), failures, counted(script.commands, expected)


def lent_after(lent, command, answer):
    """The line and input counts and the lengths of both lent books after a command, from those before it."""
    lines, inputs, book, pins = lent
    words = answer[:40].split(b" ")
    taken = words[0] == b"board" and command.startswith(b"import ")
    if taken or words[0] in (b"board", b"refused") and command.startswith((b"load ", b"open ")):
        lines, inputs = (int(words[1]), int(words[3])) if words[0] == b"board" else (0, 0)
        return lines, inputs, 2 * lines, 8 * lines
    if answer == b"lent" and command.startswith(b"lend book "):
        book = int(command[10:])
    if answer == b"lent" and command.startswith(b"lend pins "):
        pins = int(command[10:])
    return lines, inputs, book, pins


def wrong_books(lines, _inputs, book, pins):
    """Which of the lent books has the wrong length, where one has."""
    return "both books" if book != 2 * lines and pins != 8 * lines else "line book" if book != 2 * lines else "pin book"


def image_after(image, command, answer):
    """The kept image after a command other than an alteration, from that before it; nothing where it came from a file."""
    if command.startswith(b"import ") and answer.startswith(b"board "):
        return None
    if answer.startswith(b"? ") or not command.startswith((b"load ", b"open ")):
        return image
    return bytes.fromhex(command[5:].decode().replace("-", "")) if command.startswith(b"load ") else None


def alteration(image, command):
    """The boards before and after an accepted alteration, and the altered line."""
    _, line, data = command.split(b" ")
    before = shapes.board_of(image)
    return before, before.altered(int(line), shapes.unpacked(bytes.fromhex(data.decode()))), int(line)


def of_alteration(before, after, line):
    """What the table counts of an accepted alteration. A line is touched by the outputs that it and the altered line both reach."""
    outputs, reached, pairs = before.outputs, before.reached(), shapes.shared(before, after, line)
    touched, several, last = [old | new for old, new in pairs], len(outputs) > 1, 1 << len(outputs) - 1
    forms = {
        ("altered board", "64 outputs"): len(outputs) == 64,
        ("altered board", "an output is an input"): outputs[0] < before.inputs,
        ("altered board", "a line reaches none"): 0 in reached,
        ("altered line", "reaches none"): reached[line] == 0,
        ("altered line", "is an output and reaches another"): line in outputs and reached[line] != 1 << outputs.index(line),
        ("touched", "by the first output only"): several and 1 in touched,
        ("touched", "by the last only"): several and last in touched,
        ("touched", "by the 64th only"): 1 << 63 in touched,
        ("touched", "before only"): any(old and not new for old, new in pairs),
        ("touched", "after only"): any(new and not old for old, new in pairs),
    }
    for pin in range(4):
        others = [old | new for old, new in shapes.shared(before, after, line, pin)]
        forms["touched", f"through pin {pin} only"] = any(all_pins and not less for all_pins, less in zip(touched, others))
    return [form for form, holds in forms.items() if holds]


@functools.lru_cache(maxsize=2)
def exclusive_ors(image):
    """The exclusive-ors of three and four pins on a good image's board."""
    return shapes.board_of(image).exclusive_ors()


def of_fault(image, name, command):
    """What the table counts of an accepted call with a fault: one on an exclusive-or, by its pins."""
    at = int(command.rsplit(b" ", 1)[1].split(b"/")[0].split(b".")[0])
    return [(XORS[len(pins)], name) for line, pins in exclusive_ors(image) if line == at]


def of_row(image, row):
    """What the table counts of a row that a call has filled: exclusive-ors with three pins at 1, and with x on one pin."""
    for _, pins in exclusive_ors(image):
        values = [row[pin] for pin in pins]
        if values.count(1) == 3:
            yield XORS[len(pins)], "three at 1"
        if values.count(2) == 1:
            yield XORS[len(pins)], f"x on pin {values.index(2)} only"


@functools.lru_cache(maxsize=2)
def tied_board(image):
    """A good image's board and its ties, as line and value."""
    board = shapes.board_of(image)
    return board, {line: kind - make.TIE0 for line, (kind, _) in enumerate(board.records) if kind in shapes.TIES}


def of_tied_fault(image, name, command, answer):
    """What the table counts of a call with a fault, accepted or refused by 12: one on a tie, and one on a gate or the very pin that a tie holds."""
    place, stuck = command.rsplit(b" ", 1)[1].split(b"/")
    line, pin = (int(word) for word in (place + b".99").split(b".")[:2])
    board, ties = tied_board(image)
    if line in ties:
        return [("a tie", f"{name} refused" if answer == b"refused 12" else f"{name} at {int(stuck)}")]
    kind, pins = board.records[line]
    held = [i for i, below in enumerate(pins) if below in ties and pin in (i, 99)]
    if not held or answer == b"refused 12":
        return []
    return [("a tied leg", name), ("a tied leg", f"of kind {kind}"), *(("a tied leg", f"pin {i} at {ties[pins[i]]}") for i in held)]


def of_tied_row(image, row):
    """What the table counts of a row that a call has filled: ties that are settled beside an x, and ties at D and D-bar."""
    for line in tied_board(image)[1]:
        if 2 in row and row[line] < 2:
            yield "a tie's row", f"{row[line]} beside x"
        if row[line] > 2:
            yield "a tie's row", "D" if row[line] == 3 else "D-bar"


def of_tied_alteration(image, command, answer):
    """What the table counts of an alteration, accepted or refused by 10, from a tie or to one."""
    _, line, data = command.split(b" ")
    old, new = tied_board(image)[0].records[int(line)][0], int(data[:2], 16)
    from_tie, to_tie = old in shapes.TIES, new in shapes.TIES
    if answer.startswith(b"found "):
        forms = {"gate to tie": to_tie and not from_tie, "tie to gate": from_tie and not to_tie, "to itself": from_tie and new == old,
                 "to the other": from_tie and to_tie and new != old}
    else:
        forms = {"to an input refused": from_tie and new == make.INPUT, "gate to bad tie refused": to_tie and 0 < old < make.TIE0,
                 "tie to bad tie refused": from_tie and to_tie, "to kind 11 refused": new == 11, "input to tie refused": to_tie and old == make.INPUT}
    return [("a tie altered", form) for form, holds in forms.items() if holds]


def of_bad_tie(image, line, field):
    """What the table counts of a record that refusal 4 names: a tie, what stands at line 0 or behind a tie, and a kind just over the highest."""
    at = len(image) - int.from_bytes(image[-8:-4], "little") + 10 * line
    kind, before = image[at], image[at - 10] if line else make.INPUT
    forms = {"at line 0": line == 0 and kind in shapes.TIES, "a gate at line 0": line == 0 and kind in shapes.PINNED, "kind 11": kind == 11,
             "an input after it": (kind, field) == (make.INPUT, 0) and before in shapes.TIES}
    return [("a bad tie", form) for form, holds in forms.items() if holds] + [("a bad tie", f"field {field}")] * (kind in shapes.TIES and field > 0)


def of_drawn_tie(image, name, command, answer):
    """What the table counts of a drawing that is read or written: one with a tie, and one that begins with a gate."""
    if name in ("write", "export"):
        return [("a drawn tie", answer.split(b" ")[0].decode())] * (image is not None and bool(tied_board(image)[1]))
    text = bytes.fromhex(command[5:].decode().replace("-", ""))
    if answer.startswith(b"read "):
        return [("a drawn tie", "read")] * (b"TIE" in text)
    return [("a drawn tie", "at line 0" if re.search(rb"^n0 = TIE", text, re.M) else "a gate at line 0")] * (answer == b"refused 4 at 0.0")


def of_ties(image, name, command, answer):
    """What the table counts of lines tied to a rail, from a command, its answer and the kept image before it."""
    accepted = not answer.startswith((b"refused ", b"? "))
    if name == "load" and answer.startswith(b"refused 4 at "):
        return of_bad_tie(bytes.fromhex(command[5:].decode()), *map(int, answer[13:].split(b".")))
    if name == "read" or name in ("write", "export") and accepted:
        return [] if answer.startswith(b"? ") else of_drawn_tie(image, name, command, answer)
    if image and name in ON_FAULT and (accepted or answer == b"refused 12"):
        return of_tied_fault(image, name, command, answer)
    if image and name == "alter" and (accepted or answer == b"refused 10"):
        return of_tied_alteration(image, command, answer)
    return []


def of_pattern(pattern):
    """What the table counts of a pattern that Find gives: where it stands among the 64 patterns of a word and the 512 of a block."""
    return "of the first word" if pattern < 64 else "of the first block" if pattern < 512 else "of a later block"


def of_departure(text, length):
    """What the table counts of a drawing that is refused by 13 at a length: where in its last statement it departs."""
    if length == len(text):
        return "at the end"
    begun = text[:length].rsplit(b"\n", 1)[-1]
    return next(name for name, form in DEPARTURES.items() if re.fullmatch(form, begun))


def of_size(name, command, answer, lines, inputs):
    """What the table counts of an answer on a large board: the kept one, or the one that was read."""
    if name == "read":
        text = bytes.fromhex(command[5:].decode()) if answer.startswith(b"read ") else b""
        lines, inputs = text.count(b" = ") + text.count(b"INPUT("), text.count(b"INPUT(")
    call = (name.removesuffix(" pin") if name in ON_FAULT else name) + (" refused" if answer.startswith(b"refused ") else "")
    large = {"> 512 lines": lines > 512, "> 24 inputs": inputs > 24}
    return [(row, call) for row, holds in large.items() if holds and not answer.startswith(b"? ")]


def of_limit(name, command, answer, inputs):
    """What the table counts at the limits: boards that just pass and that just do not, wide patterns of 32 inputs, and entries that are put."""
    words = command.split(b" ")
    if answer.startswith(b"board "):
        return [("a limit", f) for f in ("4096 lines", "32 inputs") if f.encode() in answer]
    if answer == b"refused 2" and name == "load":
        return [("a limit", "4097 lines")] * (int.from_bytes(bytes.fromhex(command[-24:-20].decode()), "little") == 4097)
    if answer == b"refused 4 at 32.0":
        return [("a limit", "a 33rd input")]
    if name in ("put entry", "put pin") and answer == b"lent":
        return [("an entry put", str(int(words[3])))]
    if inputs == 32 and name in (*ON_FAULT, "refresh") and answer[:1] != b"?" and not name.startswith("find"):
        bits = int(words[2 if name == "refresh" else 1]).bit_length()
        return [("of 32 inputs", f"a pattern of {bits} bits")] * (answer == b"refused 8" if bits > 32 else not answer.startswith(b"refused "))
    return []


def counted(commands, answered):
    """How often each form of answer of each command arose."""
    counts, lent, image, filled = collections.Counter(), (0, 0, 0, 0), None, False
    for command, answer in zip(commands, answered):
        name = command_name(command, answer)
        counts[name, form(command, answer)] += 1
        lent = lent_after(lent, command, answer)
        large = of_size(name, command, answer, *lent[:2]) + of_limit(name, command, answer, lent[1])
        counts.update((row, f) for row, f in large if f in CAN_ANSWER[row])
        if answer.startswith(b"refused 4 at "):
            counts["a bad record", "field " + answer.decode().rsplit(".", 1)[1]] += 1
        if name.startswith("find") and answer.isdigit():
            counts["a pattern", of_pattern(int(answer))] += 1
        if name == "read" and answer.startswith(b"refused 13 at "):
            counts["a departure", of_departure(bytes.fromhex(command[5:].decode()), int(answer[14:]))] += 1
        if (name, answer) == ("alter", b"refused 9"):
            counts["alter's 9", wrong_books(*lent)] += 1
        image = image_after(image, command, answer)
        counts.update(of_ties(image, name, command, answer))
        if name == "alter" and answer.startswith(b"found ") and image:
            before, after, line = alteration(image, command)
            counts.update(of_alteration(before, after, line))
            image = after.image()
        if filled and command == b"show good 0" and image:
            row = bytes.fromhex(answer[4:].decode())
            counts.update([*of_row(image, row), *of_tied_row(image, row)])
        accepted = name in ON_FAULT and not answer.startswith((b"refused ", b"? "))
        if accepted and image:
            counts.update(of_fault(image, name, command))
        filled = accepted and name.startswith(("rows", "five"))
    return counts


def table(counts):
    """The table of counts: accepted answers by form, each refusal, and '?'."""
    numbers = [str(n) for n in range(1, 15)]
    rows = [["command", *numbers, "?", "accepted"]]
    for name in CAN_ANSWER:
        forms = {f: n for (c, f), n in sorted(counts.items()) if c == name}
        accepted = "  ".join(f"{f}: {n}" for f, n in forms.items() if f not in numbers and f != "?")
        rows.append([name, *(str(forms.get(f, "")) for f in [*numbers, "?"]), accepted])
    return "\n".join(f"{r[0]:<13}" + "".join(f"{cell:>6}" for cell in r[1:-1]) + "   " + r[-1] for r in rows)


def too_few(counts):
    """The answers that arose too seldom."""
    return [f"{name}: {f}" for name, forms in CAN_ANSWER.items() for f in forms if counts[name, f] < ENOUGH]


def answers_at_once(product):
    """Whether a program answers each line as soon as it is there, though the line comes in two pieces."""
    program = subprocess.Popen(product, stdin=subprocess.PIPE, stdout=subprocess.PIPE, bufsize=0)
    good = True
    for first, second, answer in ((b"che", b"ck\n", b"refused 1\n"), (b"load " + make.T.hex().encode(), b"\n", b"board 3 lines"),
                                  (b"\n", b"find 1/0\n", b"?"), (b"", b"image\nentr", b"0\n"), (b"ies", b"\n", b"image 00")):
        program.stdin.write(first)
        program.stdin.write(second)
        good = good and bool(select.select([program.stdout], [], [], 60)[0]) and program.stdout.readline().startswith(answer)
    program.stdin.close()
    rest = program.stdout.read()
    return good and program.wait() == 0 and rest == b"entries 99 99 99 99 99 99\n"


# inputs whose ends matter
ENDINGS = (b"", b"\n", b"check", b"check\n", b"check\n\n", b"\n\nhelp", b" ", b"x" * 199_999, b"x" * 200_000, b"x" * 200_000 + b"\n",
           b"x" * 199_999 + b"\ncheck", b"x" * 500_000 + b"\ncheck\n", b"x" * 1_000_000)


def ends_alike(product, oracle):
    """How many of those inputs get as many answers, and the same ones, from both programs."""
    def lines(program, data):
        """What a program writes, line by line."""
        return subprocess.run(program, input=data, stdout=subprocess.PIPE, timeout=TIMEOUT).stdout.split(b"\n")
    return sum(same_lines(lines(oracle, data), lines(product, data), data.split(b"\n")) for data in ENDINGS)


def same_lines(expected, found, commands):
    """Whether two outputs have the same number of lines, which agree one by one."""
    return len(expected) == len(found) and all(map(agree, commands + [b""], expected, found))


def compare(seed, commands, product, oracle=ORACLE, jobs=2):
    """All scripts, two at a time; gives parts passed, words for what failed, and the counts."""
    number = max(jobs, -(-commands // SCRIPT))
    passed, failures, counts = 0, [], collections.Counter()
    with concurrent.futures.ProcessPoolExecutor(jobs) as pool:
        work = [pool.submit(held_against, seed, i, -(-commands // number), product, oracle) for i in range(number)]
        for done in concurrent.futures.as_completed(work):
            good, bad, seen = done.result()
            passed, failures, counts = passed + good, failures + bad, counts + seen
    return passed, failures, counts


def tell(failures):
    """Prints the first failures, and keeps for each the commands that show it alone."""
    shutil.rmtree(FAILURES, ignore_errors=True)
    for i, (words, commands) in enumerate(failures[:12]):
        print(words)
        if commands:
            FAILURES.mkdir(parents=True, exist_ok=True)
            (FAILURES / f"{i}.txt").write_bytes(commands)
            print(f"  alone:       {FAILURES.relative_to(ROOT)}/{i}.txt")


def main():
    """The comparison, its table and its last line."""
    words = argparse.ArgumentParser(description=__doc__, formatter_class=argparse.RawDescriptionHelpFormatter)
    words.add_argument("--seed", type=int, default=1)
    words.add_argument("--commands", type=int, default=60_000)
    words.add_argument("--product", nargs="+", default=PRODUCT, help="another program to hold against the independent one")
    asked = words.parse_args()
    asked.product[0] = str(Path(asked.product[0]).resolve())
    programs.build_oracle()
    if asked.product[0] == programs.LAUNCHER:
        programs.build("bench")
    at_once = answers_at_once(asked.product)
    passed, failures, counts = compare(asked.seed, asked.commands, asked.product)
    endings = ends_alike(asked.product, ORACLE)
    failures += [("FAILED: an input's end is read otherwise", b"")] * (len(ENDINGS) - endings)
    failures += [] if at_once else [("FAILED: an answer did not come as soon as its line", b"")]
    seldom = too_few(counts) if asked.commands >= ENOUGH_FROM else []
    failures += [(f"FAILED: arose fewer than {ENOUGH} times: {', '.join(seldom)}", b"")] if seldom else []
    print(table(counts))
    tell(failures)
    print(f"seed {asked.seed}, {sum(n for (c, _), n in counts.items() if c not in CLOSER)} commands")
    print(f"{passed + endings + at_once + (not seldom)} passed, {len(failures)} failed")
    sys.exit(1 if failures else 0)


if __name__ == "__main__":
    main()
