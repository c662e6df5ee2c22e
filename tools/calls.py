#!/usr/bin/env python3
"""Says whether docs/PROMISES.md and the sources agree on the public calls and on what is inner.

Every `pub fn` of a library is accounted for. It is a call, which has a row in the table of calls: then it has no `requires`, its `ensures`
is `Owes` of its promise alone (or Show's `ShowOwes`; Read's goes by what its text is), the promise and the law that pins it stand where the row says, the front page lists it,
and the row names at least two must-fail edits of its crate, one of them in its own src/lib.rt. Or it is exported: then it has no
`requires` and ensures `Exported` alone. Or it is inner: then it stands under a module path that PROMISES.md names as inner. A module that
no other crate uses is private.
Every must-fail edit of every crate is named in PROMISES.md.
"""
import pathlib
import re
import sys

ROOT = pathlib.Path(__file__).resolve().parent.parent
CRATES = ROOT / "crates"
# a function or a method, from its name to its body, which begins on the same line where there is no contract
FUNCTION = re.compile(r'^ *pub (extern "C" )?fn (\w+)(.*?)(?:^ *\{$|(?<=[\w\])>]) \{$)', re.M | re.S)
ROW = re.compile(r"^\| \*\*(.+?)\*\* \|(.*)\|$", re.M)
INNER = re.compile(r"^- inner: (.*)$", re.M)
# a contract's promise: of a call on a drawing's text it goes by what that text is
ENSURED = re.compile(r"ensures \{ (?:ByReading \w+\.now \(λ is\. )?(\w+)(?: \((\w+))?")


def libraries():
    """The crates that are libraries, in the order of crates.txt."""
    names = [line.split(":")[0] for line in (ROOT / "crates.txt").read_text().splitlines() if ":" in line]
    return [name for name in names if (CRATES / name / "src/lib.rt").exists()]


def public_functions():
    """Each public function of each library: its module path, name, whether it is exported, and its header."""
    for crate in libraries():
        for source in sorted((CRATES / crate / "src").glob("*.rt")):
            path = crate if source.stem == "lib" else f"{crate}::{source.stem}"
            for exported, name, header in FUNCTION.findall(source.read_text()):
                yield path, name, bool(exported), header


def ensured(header):
    """What a contract ensures, by a clause: the word, and where it is Owes or Exported the promise; a clause of another form gives nothing."""
    clauses = [ENSURED.match(header, at.start()) for at in re.finditer(r"\bensures\b", header)]
    return [clause.groups("") if clause else ("", "") for clause in clauses]


def call_faults(path, name, header, cells, front):
    """What is wrong with a call's contract, or with its row."""
    call = f"{path}::{name}"
    _, _, promise, pinned, edits = cells
    promise_name, promise_file = re.search(r"`(\w+)`, (\S+)", promise).groups()
    law, law_file = re.search(r"`([\w-]+)`, (\S+)", pinned).groups()
    if "requires" in header:
        yield f"{call} has a requires"
    if ensured(header) not in ([("Owes", promise_name)], [(promise_name, "")]):
        yield f"{call} does not ensure what {promise_name} owes, alone"
    if promise_name != "ShowOwes" and f"Call ({promise_name} " not in front:
        yield f"{promise_name} is not on the front page"
    if not re.search(rf"^(?:abbrev )?pub (?:record )?{promise_name}\b", (CRATES / promise_file).read_text(), re.M):
        yield f"{promise_name} does not stand in {promise_file}"
    if not re.search(rf"^ *pub {law} :", (CRATES / law_file).read_text(), re.M):
        yield f"{law} does not stand in {law_file}"
    named = re.findall(r"`(\w+)`", edits)
    if len(named) < 2:
        yield f"{call} names fewer than two must-fail edits"
    texts = {edit: CRATES / path / "must-fail" / f"{edit}.edit" for edit in named}
    yield from (f"{path} has no edit {edit}" for edit, text in texts.items() if not text.exists())
    if not any(text.exists() and "file: src/lib.rt" in text.read_text() for text in texts.values()):
        yield f"{call} has no edit in its own src/lib.rt"


def module_faults():
    """Public modules that no other crate uses."""
    sources = {crate: "\n".join(s.read_text() for s in (CRATES / crate / "src").glob("*.rt")) for crate in
               [p.name for p in CRATES.iterdir() if (p / "src").is_dir()]}
    for crate in libraries():
        for module in re.findall(r"^pub mod (\w+);", (CRATES / crate / "src/lib.rt").read_text(), re.M):
            if not any(f"{crate}::{module}::" in text for other, text in sources.items() if other != crate):
                yield f"{crate}::{module} is public, and no other crate uses it"


def main():
    """Says what is wrong, or how many calls there are."""
    text = (ROOT / "docs" / "PROMISES.md").read_text()
    front = (CRATES / "demands/specs/Demands.antt").read_text()
    rows = {}
    for _, rest in ROW.findall(text):
        cells = [cell.strip() for cell in rest.split("|")]
        rows[cells[0].strip("`")] = cells
    inner = {path for line in INNER.findall(text) for path in re.findall(r"`([\w:]+)`", line)}
    wrong, calls, used = [], set(), set()
    for path, name, exported, header in public_functions():
        call = f"{path}::{name}"
        if exported:
            if "requires" in header or [word for word, _ in ensured(header)] != ["Exported"]:
                wrong.append(f"{name} does not ensure Exported alone, or has a requires")
            if f"| `{name}` |" not in text:
                wrong.append(f"{name} has no row")
        elif call in rows:
            calls.add(call)
            wrong += call_faults(path, name, header, rows[call], front)
        elif path in inner:
            used.add(path)
        else:
            wrong.append(f"{call} is neither a call nor inner")
    wrong += [f"{call} is no public call" for call in rows if call not in calls]
    wrong += [f"{path} is named as inner and has no public function" for path in sorted(inner - used)]
    wrong += module_faults()
    for edit in sorted(CRATES.glob("*/must-fail/*.edit")):
        if f"`{edit.stem}`" not in text:
            wrong.append(f"{edit.relative_to(ROOT)} is not in docs/PROMISES.md")
    print("\n".join(wrong) if wrong else f"calls: {len(calls)}, each with its promise, none with a requires; the rest is inner")
    return 1 if wrong else 0


if __name__ == "__main__":
    sys.exit(main())
