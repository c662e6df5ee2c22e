#!/usr/bin/env python3
"""Says whether docs/PROMISES.md names just what the proofs rest on, as a check by `rt` lists it.

Of each program and of the archive of the calls: the C functions whose contracts are assumed, in every library that it stands on. A library
assumes none of its own, since rt ci refuses a crate that declares C functions. Where a row is not right it prints the one that is.
"""
import pathlib
import re
import subprocess
import sys

ROOT = pathlib.Path(__file__).resolve().parent.parent


def linked():
    """The crates that code is linked for: programs and static libraries."""
    heads = [line.split(":")[0].split() for line in (ROOT / "crates.txt").read_text().splitlines() if ":" in line.partition("#")[0]]
    return [name for name, *words in heads if "staticlib" in words or (ROOT / "crates" / name / "src/main.rt").exists()]


def reached(crate):
    """The C functions on whose contracts the proof of a crate rests, or nothing where it is not proved; one rt at a time in this folder."""
    check = subprocess.run(["flock", ROOT, "rt", "check", "--list-axioms"], cwd=ROOT / "crates" / crate, stdin=subprocess.DEVNULL,
                           stdout=subprocess.PIPE, stderr=subprocess.STDOUT, text=True)
    verdicts = re.findall(r"^logic=(\S+)", check.stdout, re.M)
    is_proved = check.returncode == 0 and verdicts[-1:] == ["proved"]
    return sorted(re.findall(r"^  (\S+) +reached$", check.stdout, re.M)) if is_proved else None


def main():
    """Says what differs, or how many functions are assumed."""
    text = (ROOT / "docs/PROMISES.md").read_text()
    wrong, every = [], set()
    for crate in linked():
        said = reached(crate)
        row = re.search(rf"^- assumed by `{crate}`: (.*)$", text, re.M)
        named = re.findall(r"`([\w:]+)`", row[1]) if row else []
        if said is None:
            wrong.append(f"{crate} is not proved")
        elif said != sorted(named):
            wrong.append(f"docs/PROMISES.md should have: - assumed by `{crate}`: {', '.join(f'`{name}`' for name in said) or 'none'}")
        every |= set(said or [])
    print("\n".join(wrong) if wrong else f"assumed: {len(every)} C functions, each named")
    return 1 if wrong else 0


if __name__ == "__main__":
    sys.exit(main())
