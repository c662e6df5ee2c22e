#!/usr/bin/env python3
"""Brings the repository's own antt names to today's spelling; run once, right after the kit's port.py (docs/PORT.md).

Functions and lemmas that were in camel case are in snake case. A dash stays where it joins two names that are declared somewhere, as in
`grow-build`; in front of or behind a plain word it becomes `_`, as in `value_is`. Types, facts, modules and whatever comes from .rt
sources keep their spelling, as do strings. It prints names that would fall together with another, and then writes nothing.
"""
import glob
import os
import re
import sys

ROOT = os.path.dirname(os.path.dirname(os.path.abspath(__file__)))
HEAD = re.compile(r"^\s*(?:(?:abbrev|unfoldable|pub)\s+)*([^\s:(){}\[\],;.=]+)\s+:\s")
BINDER = re.compile(r"^\s*(?:pub\s+)?(?:record|data)\s+(?:pub\s+)?(\S+)")
NAME = re.compile(r"[^\s(){}\[\];,.:=\"`]+")
CAMEL = re.compile(r"^[a-z][\w']*[A-Z]")
# lemmas that would have their function's names
AGREED = {
    "bad-at": "bad_at_lem",
    "brought-up": "brought_up_lem",
    "every-filling": "every_filling_lem",
    "faulty-half": "faulty_half_lem",
    "first-record": "first_record_lem",
    "good-half": "good_half_lem",
    "held-line": "held_line_lem",
    "held-pin": "held_pin_lem",
    "held-pins": "held_pins_lem",
    "image-refusals": "image_refusals_lem",
    "input-text": "input_text_lem",
    "line-count": "line_count_lem",
    "lines-bytes": "lines_bytes_lem",
    "long-bytes": "long_bytes_lem",
    "output-at": "output_at_lem",
    "output-count": "output_count_lem",
    "output-text": "output_text_lem",
    "pins-to": "pins_to_lem",
    "record-bytes": "record_bytes_lem",
    "refused-text": "refused_text_lem",
    "section-by": "section_by_lem",
    "word-bytes": "word_bytes_lem",
}
# parameters and names of imports, which are declared nowhere
PARAMETERS = "goodRow faultyRow wantsFaulty goodAfter faultyAfter goodRoom faultyRoom inputsOf stuckAt spreadOut oldPins".split()
# a record's field and a function in different crates
APART = [["noPin", "no_pin"], ["pinAt", "pin_at"]]
TEXTS = ["README.md", "docs/ARCHITECTURE.md", "docs/DECISIONS.md", "docs/PROMISES.md", "tools/calls.py", "tools/assumed.py"]


def antt_files():
    return sorted(p for p in glob.glob(os.path.join(ROOT, "crates", "*", "*", "**", "*.antt"), recursive=True) if "/out/" not in p)


def declared():
    """The names that the repository declares, but those of proofs that follow a function's code; the names that it imports or declares;
    and the functions among these that a lemma may be named after."""
    own, known, words = set(), set(), set()
    for path in antt_files():
        walked = os.path.basename(path) in ("Proof.antt", "Answers.antt", "Invariants.antt")
        with open(path, encoding="utf-8") as f:
            for line in f:
                for pattern in (HEAD, BINDER):
                    it = pattern.match(line)
                    if it and not line.lstrip().startswith("--"):
                        (known if walked else own).add(it.group(1))
                        if "/specs/" in path and re.match(r"\s*(abbrev|unfoldable) ", line):
                            words.add(it.group(1))
                if line.startswith("use "):
                    names = {n.strip() for n in re.sub(r".*\.\{(.*)\}", r"\1", line.strip()).split(",") if " " not in n.strip()}
                    known |= names
                    if re.search(r"std\.specs\.Prelude|lib\.ListN|mathlib\.Core\.List", line):
                        words |= {n for n in names if "-" not in n}
    return own, known | own, words


def snake(name):
    return re.sub(r"(?<=[a-z0-9'])[A-Z]|(?<=[A-Z])[A-Z](?=[a-z])", lambda m: "_" + m.group(0), name).lower()


def undashed(name, words):
    parts = name.split("-")
    out = parts[0]
    for left, right in zip(parts, parts[1:]):
        joins = left in words and right in words and left and right
        out += ("-" if joins or not left or not right else "_") + right
    return out


def turned(own, functions):
    camel = {n: snake(n) for n in own if CAMEL.match(n) and "-" not in n}
    words = functions | {camel[n] for n in functions if n in camel}
    names = dict(camel)
    for n in own:
        if "-" in n and re.match(r"^[a-z][\w'-]*$", n):
            new = undashed("-".join(camel.get(p, snake(p) if CAMEL.match(p) else p) for p in n.split("-")), words)
            if new != n:
                names[n] = new
    return names | AGREED | {n: snake(n) for n in PARAMETERS}


def fall_together(names, own, known):
    """Names that would become one: two of the repository's, or one of them and a name that somebody else declares."""
    meet = {}
    for n in own:
        meet.setdefault(names.get(n, n), set()).add(n)
    bad = [sorted(v) for v in meet.values() if len(v) > 1]
    bad += [[n, new] for n, new in names.items() if new in known and new not in own]
    return sorted(bad)


def write(path, names, code):
    with open(path, encoding="utf-8") as f:
        text = f.read()

    def one(line):
        if code:
            at = re.search(r"(^|\s)(--|//)(\s|$)", line)
            body, comment = (line[: at.start()], line[at.start() :]) if at else (line, "")
            body = NAME.sub(lambda m: names.get(m.group(0), m.group(0)), body)
            return body + NAME.sub(lambda m: names.get(m.group(0), m.group(0)) if CAMEL.match(m.group(0)) else m.group(0), comment)
        return re.sub(r"`[^`]*`", lambda m: NAME.sub(lambda n: names.get(n.group(0), n.group(0)), m.group(0)), line)

    new = "".join(one(l) for l in text.splitlines(keepends=True))
    if new != text:
        with open(path, "w", encoding="utf-8") as f:
            f.write(new)


def main():
    own, known, functions = declared()
    names = turned(own, functions)
    bad = [b for b in fall_together(names, own, known) if b not in APART]
    if "--list" in sys.argv:
        for n in sorted(names):
            print(n, names[n])
    for b in bad:
        print("fall together:", *b)
    if bad or "--list" in sys.argv:
        return 1
    sources = glob.glob(os.path.join(ROOT, "crates", "*", "src", "**", "*.rt"), recursive=True)
    edits = glob.glob(os.path.join(ROOT, "crates", "*", "must-fail", "*.edit"))
    for path in antt_files() + sorted(sources) + sorted(edits):
        write(path, names, True)
    for path in TEXTS:
        write(os.path.join(ROOT, path), names, False)
    print(f"{len(names)} names turned")
    return 0


if __name__ == "__main__":
    sys.exit(main())
