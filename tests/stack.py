#!/usr/bin/env python3
"""No call needs 2 MiB of stack: by its machine code, and run with no more on boards of the most lines.

Its last line is 'N passed, M failed'.
"""
import re
import resource
import subprocess
import sys

import archive
from counted import count, end
from programs import ROOT

LIMIT = 2 << 20


def worked_out():
    """The most stack of all calls by their machine code, which is held to the limit and to the page's table; nothing where no tool can tell."""
    said = subprocess.run([sys.executable, str(ROOT / "tools/stack.py"), "--check"], stdout=subprocess.PIPE, stderr=subprocess.STDOUT, text=True)
    if "no objdump" in said.stdout:
        print(f"SKIPPED: {said.stdout.strip()}")
        return None
    most = re.search(r"^([0-9]+) calls, ([0-9,]+) bytes of stack at most$", said.stdout)
    count("by the machine code", said.returncode == 0 and most, said.stdout, int(most[1]) if most else 1)
    return int(most[2].replace(",", "")) if most else None


def within(size, words):
    """What a program gives that has so many bytes of stack."""
    lower = lambda: resource.setrlimit(resource.RLIMIT_STACK, (size, size))
    return subprocess.run([str(word) for word in words], stdout=subprocess.PIPE, stderr=subprocess.STDOUT, text=True, preexec_fn=lower)


def main():
    """The machine code, then the C tests with the limit, and with half of what the code may need, which has to be too little."""
    archive.build()
    most = worked_out()
    for source in ("tests/bindings.c", "tests/large.c"):
        run = [archive.compiled(source), ROOT / "boards"]
        done = within(LIMIT, run)
        all_passed = re.search(r"^([0-9]+) passed, 0 failed\n\Z", done.stdout, re.M)
        count(source, done.returncode == 0 and all_passed, done.stdout[-2000:], int(all_passed[1]) if all_passed else 1)
        if most:
            count(f"{source}, the limit counts", within(most // 2, run).returncode != 0, f"it ran with {most // 2} bytes of stack")
    end()


if __name__ == "__main__":
    main()
