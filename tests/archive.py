"""The archive of the calls, as tests use it: proved and written, and linked into C programs."""
import os
import subprocess

from counted import count, counts, end
from programs import ROOT

CRATE = ROOT / "crates/exports"
ARCHIVE = CRATE / "out/libexports.a"
ROOM = ROOT / "target/bindings"
STRICT = ["-std=c11", "-O2", "-pedantic", "-Wall", "-Wextra", "-Wconversion", "-Werror"]


def run(name, command, timeout=1800, **words):
    """What a command writes, or nothing where it fails, which is a failed check."""
    done = subprocess.run([str(c) for c in command], stdout=subprocess.PIPE, stderr=subprocess.STDOUT, text=True, timeout=timeout, **words)
    if done.returncode != 0:
        count(name, False, f"exit {done.returncode}: {done.stdout[-2000:]}")
    return done.stdout


def build():
    """Proves and writes the archive, and ends the tests where that fails; one rt at a time in this folder, as the launcher has it."""
    run("archive", ["flock", ROOT, "rt", "lib"], timeout=7200, cwd=CRATE, stdin=subprocess.DEVNULL)
    if counts[False]:
        end()


def compiled(source):
    """The program that a C file and the archive make."""
    ROOM.mkdir(parents=True, exist_ok=True)
    program = ROOM / source.replace("/", "_").removesuffix(".c")
    run(source, [os.environ.get("CC", "cc"), *STRICT, ROOT / source, ARCHIVE, "-o", program])
    return program
