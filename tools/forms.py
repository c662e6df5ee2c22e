#!/usr/bin/env python3
"""Counts the older forms that docs/DESIGN-PASS.md speaks of, in the sources as they stand or at a commit: tools/forms.py [COMMIT] [-v].

A form is found by its spelling, so that a count is the same whoever counts; with -v every place is printed. The table of five values is data and left out.
"""
import pathlib
import re
import subprocess
import sys

ROOT = pathlib.Path(__file__).resolve().parent.parent
FORMS = [
    (1, "variants of own enums that say none, refused or stopped", r"^    (\w*Stop|Refused|Nothing|Nowhere|DepartsAt|Sound|Other|Unread|Bad|None)\b"),
    (1, "flags that stand beside a value in a struct", r"^    (pub )?\w+: bool,"),
    (1, "kinds, sections, pieces and forms as numbers", r"\b(kind|section|which|way|form|o): usize"),
    (1, "constants that number pieces, or stand for none", r"^(pub )?const (NO_PIN|BEFORE_WORDS|FIRST_WORD|FIRST_TIE|END|INPUT|OUTPUT|GATE|CLOSE|NEXT_PIN|LAST_KIND): usize"),
    (2, "functions that give room and nothing else", r"^(pub )?fn \w+\(\) -> \["),
    (2, "functions that hand on refusals or say answers, one a type", r"^pub fn (then_\w+\(tested|(checked|filled|judged|driven|found|counted|made)\(\w: )"),
    (2, "functions whose name another of the crates has too", None),
    (3, "loops that count or step by hand", r"^\s*(while |loop |let .* = .*loop )"),
    (4, "conversions, orders and equalities by hand", r"\bfn (smaller|larger|fewer|wide|digit|is_same|either|cleared|place_if)\("),
    (5, "clauses that say that an image is accepted, with its counts", r"Known img|Accepted img"),
    (5, "clauses that say that a board is decoded", r"Flat \(board_of"),
    (5, "clauses that say how refusals go on", r"Past rs s"),
    (5, "clauses that say that buffers are long enough or lent within", r"line_room ≤|≡ roomy|Arrays |Within "),
    (6, "buffers for text, with a length given beside", r"\bout: &mut \[u8\]"),
    (6, "arrays of flat numbers", r"\bflat: &(mut )?\[u16\]"),
    (6, "lengths of what is lent, beside its array", r"\b(lent|held|old): (usize|Lengths|BookLengths|Held)\b"),
    (7, "steps told by a number", r"^\s+\d+ => [^0]"),
    (7, "tests told by a sort", r"Sort::(Digit|Hex|Path)"),
]
NAME = re.compile(r"^ *(?:pub )?fn (\w+)", re.M)


def sources(commit):
    """Each source file and its text, at a commit or as it stands."""
    if commit is None:
        paths = sorted(ROOT.glob("crates/*/src/*.rt"))
        return {str(p.relative_to(ROOT)): p.read_text() for p in paths if p.name != "table.rt"}
    git = lambda *words: subprocess.run(["git", *words], cwd=ROOT, check=True, stdout=subprocess.PIPE, text=True).stdout
    paths = git("ls-tree", "-r", "--name-only", commit, "crates").split()
    return {p: git("show", f"{commit}:{p}") for p in paths if re.fullmatch(r"crates/\w+/src/\w+\.rt", p) and not p.endswith("/table.rt")}


def shared_names(texts):
    """The functions, but for main, whose name stands in more than one crate."""
    homes = {}
    for path, text in texts.items():
        for name in NAME.findall(text):
            homes.setdefault(name, set()).add(path.split("/")[1])
    return [f"{name}: {', '.join(sorted(crates))}" for name, crates in sorted(homes.items()) if len(crates) > 1 and name != "main"]


def places(texts, form):
    """Where a form stands."""
    if form is None:
        return shared_names(texts)
    found = re.compile(form)
    return [f"{path}:{at}: {line.strip()}" for path, text in texts.items() for at, line in enumerate(text.split("\n"), 1)
            if found.search(line) and not line.lstrip().startswith("//")]


def main():
    """Prints a line for each form: its point, how many places, and what it is."""
    words = [word for word in sys.argv[1:] if word != "-v"]
    texts = sources(words[0] if words else None)
    for point, what, form in FORMS:
        found = places(texts, form)
        print(f"{point}  {len(found):3}  {what}")
        if "-v" in sys.argv:
            print("".join(f"        {place}\n" for place in found), end="")


if __name__ == "__main__":
    main()
