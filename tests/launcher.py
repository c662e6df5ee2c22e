#!/usr/bin/env python3
"""The launcher ./bench, in a scratch repository and with a stand-in for rt that notes its calls: what it proves, when, and what it runs.

Its last line is 'N passed, M failed'.
"""
import fcntl
import os
import re
import shutil
import signal
import subprocess
import tempfile
import time
from pathlib import Path

from counted import count, end
from programs import LAUNCHER

# the signals that end a launcher
ENDING = signal.SIGHUP, signal.SIGINT, signal.SIGTERM
# stands in for rt: a program's source is its binary. It refuses a run beside another one, and a crate whose source says 'unproved'. While
# there is a file 'slow' it waits until the launcher has told of each step, and at last until three runs have said that they wait. A file
# 'before' or 'after' is put in as the program's source before or after the program is built. As rt it builds nothing whose stamp it finds, writes
# a stamp only where the source is still the same, and at last runs what it built.
RT = """\
#!/bin/sh
top=$(cd "$(dirname "$0")" && pwd)
[ "$1" != version ] || exec cat "$top/kit"
name=${PWD##*/}
told() { [ ! -f "$top/slow" ] || for _ in $(seq 100); do [ "$(grep -c "$2" "$top/said")" -ge "$1" ] && return; sleep 0.1; done; }
checks() {
    echo "rt: chose --jobs 2 for $1" && told 1 "$2"
    if grep -q unproved "../$1"/src/*; then echo "rt: the library $1 did not build, so nothing above it was checked" && exit 1; fi
}
stamp() { sha256sum <src/main.rt | cut -d ' ' -f 1 && sha256sum <"out/$name" | cut -d ' ' -f 1; }
echo "$* $name" >>"$top/calls"
mkdir "$top/busy" || { echo "rt: not beside another run" && exit 2; }
trap 'rmdir "$top/busy"' EXIT
told 1 reading
checks base '1 of 4 (base)' && checks side '2 of 4 (side)' && checks wing '3 of 4 (wing)' && mkdir -p out
if [ "$(stamp 2>&1)" != "$(cat "out/$name.stamp" 2>&1)" ]; then
    rm -f "out/$name.stamp" && cp src/main.rt out/begun
    [ ! -f "$top/before" ] || mv "$top/before" src/main.rt
    checks "$name" "4 of 4 ($name)" && { echo '#!/bin/sh' && cat src/main.rt; } >"out/$name" && chmod +x "out/$name"
    told 3 waiting
    [ ! -f "$top/after" ] || mv "$top/after" src/main.rt
    ! cmp -s src/main.rt out/begun || stamp >"out/$name.stamp"
fi
echo "rt: running out/$name" && timeout 1 "out/$name"
"""
CRATES = "tool: side wing io libc # the program\n# wing: gone\nother: base\nside: base\nwing: base\nbase:\n"
FILES = {
    "base/src/lib.rt": "base", "base/specs/Lib.antt": "base", "side/src/lib.rt": "side", "side/proofs/run/Proof.antt": "proof",
    "wing/src/lib.rt": "wing", "other/src/lib.rt": "other", "tool/must-fail/wrong.edit": "edit", "tool/stdout": "",
}
PROVING = r"bench: proving tool: (.+), [0-9]+ s"
STEPS = ["reading 4 crates", *(f"crate {i + 1} of 4 ({name})" for i, name in enumerate(("base", "side", "wing", "tool")))]
WAITING = r"bench: waiting for another run that proves here, [0-9]+ s"
REFUSES = "cat >/dev/null; echo refused 13 at 7 >&2\n"
# what a filter's program does, its source, and the exit status, output and words that the launcher owes for it on the input 'in'
FILTERS = [
    ("gives its words and its input", "printf ' <%s>' \"$@\"; cat\n", (0, " <a b>in\n", "")),
    ("writes nothing", "cat >/dev/null\n", (0, "", "")),
    ("refuses", REFUSES, (1, "", "refused 13 at 7\n")),
    ("says an empty line", "echo >&2\n", (1, "", "\n")),
    ("says more than a pipe holds", "yes no | head -n 40000 >&2\n", (1, "", "no\n" * 40000)),
    ("fails", "exit 3\n", (3, "", "")),
    ("fails and says why", "echo no >&2; exit 3\n", (3, "", "no\n")),
]

def program(word):
    """The source of a program that writes a word, its arguments and its input."""
    return f"printf '{word}'; printf ' <%s>' \"$@\"; echo; cat\n"


def put(path, text):
    """Writes a file, with the folders above it, as a new file with a time of its own."""
    path.parent.mkdir(parents=True, exist_ok=True)
    path.unlink(missing_ok=True)
    path.write_text(text)


def put_program(path, text):
    """Writes a program."""
    put(path, text)
    path.chmod(0o755)


def heed_signals():
    """Gives the signals that end a launcher back their own effect."""
    for number in ENDING:
        signal.signal(number, signal.SIG_DFL)


class Room:
    """A scratch repository with the launcher, beside a stand-in for the kit and a folder for what a program keeps for a while."""

    def __init__(self, folder):
        """The launcher's copy, the crates' files, and the kit."""
        (folder / "tmp").mkdir()
        self.folder, self.repository = folder, folder / "repository"
        self.crates, self.target, self.said = self.repository / "crates", self.repository / "target", folder / "said"
        put_program(folder / "rt", RT)
        for name, text in {"kit": "kit 1\n", "calls": "", "said": "", "in": "in\n"}.items():
            put(folder / name, text)
        for name, text in {**FILES, "tool/src/main.rt": program("one")}.items():
            put(self.crates / name, text)
        put(self.repository / "crates.txt", CRATES)
        shutil.copy(LAUNCHER, self.repository / "bench")

    def calls(self):
        """How often a proof was asked for since this was last asked."""
        calls = (self.folder / "calls").read_text().splitlines()
        put(self.folder / "calls", "")
        return calls.count("run tool") if set(calls) <= {"run tool"} else calls

    def start(self, *words, said=subprocess.PIPE):
        """The launcher, started on the input 'in', with no signal ignored: a shell could not heed one that this test was started without."""
        path = {**os.environ, "PATH": f"{self.folder}:{os.environ['PATH']}", "TMPDIR": str(self.folder / "tmp")}
        with open(self.folder / "in") as given:
            return subprocess.Popen([self.repository / "bench", *words], cwd="/", env=path, text=True,
                                    stdin=given, stdout=subprocess.PIPE, stderr=said, preexec_fn=heed_signals)

    def run(self, *words):
        """The launcher's exit status, output and words, but for those that it has on a slow machine."""
        started = self.start(*words)
        out, said = started.communicate(timeout=60)
        return started.returncode, out, re.sub(r"bench: proving .*\n", "", said)

    def expect(self, name, calls, word):
        """Checks that the program of a word is run, after so many proofs."""
        ended = self.run("tool", "a b")
        count(name, ended == (0, f"{word} <a b>\nin\n", ""), ended)
        asked = self.calls()
        count(f"{name}: proofs", asked == calls, f"{asked} for {calls}")


def four_at_once(room):
    """Of four runs on a fresh clone one proves, and tells which crate of how many; the others wait, and say so; all answer right."""
    put(room.folder / "slow", "")
    put(room.target / "bench.log", "rt: chose --jobs 2 for tool\n")
    with open(room.said, "a") as said:
        runs = [room.start("tool", str(i), said=said) for i in range(4)]
        for i, run in enumerate(runs):
            out = run.communicate(timeout=120)[0]
            count(f"run {i} of four", (run.returncode, out) == (0, f"one <{i}>\nin\n"), (run.returncode, out))
    (room.folder / "slow").unlink()
    count("one proof for four runs", room.calls() == 1)
    said = room.said.read_text().splitlines()
    told = [match[1] for match in (re.fullmatch(PROVING, line) for line in said) if match]
    count("told of each crate", list(dict.fromkeys(told)) == STEPS, said)
    waited = sum(bool(re.fullmatch(WAITING, line)) for line in said)
    count("told of waiting, and of nothing else", waited >= 3 and waited + len(told) == len(said), said)


def proves_by_content(room):
    """Neither times nor what the program is not made from cause a proof; any change of content of what it is made from does."""
    room.expect("again", 0, "one")
    for path in [*room.crates.rglob("*"), room.repository / "crates.txt"]:
        if path.is_file():
            put(path, path.read_text())
            os.utime(path, (time.time() + 60,) * 2)
    room.expect("sources written again", 0, "one")
    put(room.crates / "tool/must-fail/wrong.edit", "another edit")
    put(room.crates / "other/src/lib.rt", "another")
    room.expect("a change beside the program", 0, "one")
    for name in ("base/src/lib.rt", "base/specs/Lib.antt", "side/proofs/run/Proof.antt", "side/src/more.rt", "tool/stdout"):
        put(room.crates / name, "changed")
        room.expect(f"changed: {name}", 1, "one")
    (room.crates / "side/src/more.rt").rename(room.crates / "side/src/most.rt")
    room.expect("renamed", 1, "one")
    (room.crates / "side/src/most.rt").unlink()
    room.expect("removed", 1, "one")
    put(room.repository / "crates.txt", CRATES + "more: base\n")
    room.expect("changed: crates.txt", 1, "one")
    put(room.folder / "kit", "kit 2\n")
    room.expect("another kit", 1, "one")
    put(room.crates / "tool/src/main.rt", program("two"))
    room.expect("changed: the program", 1, "two")
    room.expect("again after changes", 0, "two")


def refuses_unproved(room):
    """What is not proved is not run, however often it is tried, and what was proved before is still there for its own sources."""
    put(room.crates / "base/src/lib.rt", "unproved")
    put(room.crates / "tool/src/main.rt", program("three"))
    for _ in range(2):
        status, out, said = room.run("tool")
        count("not proved", (status, out) == (1, "") and "rt: the library base did not build" in said, (status, out, said))
        count("tried", room.calls() == 1)
    put(room.crates / "base/src/lib.rt", "changed")
    put(room.crates / "tool/src/main.rt", program("two"))
    room.expect("put back", 0, "two")


def runs_nothing_else(room):
    """A binary of other sources, or of none, is not run, whatever stamp lies beside it."""
    out = room.crates / "tool/out"
    put_program(out / "tool", program("planted"))
    room.expect("a binary put in by hand", 0, "two")
    shutil.rmtree(room.target)
    room.expect("a binary that nothing proved", 1, "two")
    shutil.rmtree(room.target)
    put_program(out / "tool", program("planted"))
    put(out / "tool.stamp", "".join(subprocess.check_output(["sha256sum", path], text=True)[:64] + "\n" for path in (room.crates / "tool/src/main.rt", out / "tool")))
    room.expect("a binary with a stamp that nothing proved", 1, "two")
    shutil.rmtree(out)
    shutil.rmtree(room.target / "proved")
    room.expect("a proved program whose binary is gone", 1, "two")


def proves_what_it_runs(room):
    """A program is kept for the sources that it was proved with alone, though they change while it is proved."""
    put(room.crates / "tool/src/main.rt", program("three"))
    put(room.folder / "after", program("four"))
    room.expect("sources that change meanwhile", 2, "four")
    put(room.crates / "tool/src/main.rt", program("five"))
    put(room.folder / "before", program("six"))
    put(room.folder / "after", program("unproved"))
    status, out, _ = room.run("tool")
    count("sources that are not proved in the end", (status, out, room.calls()) == (1, "", 2), (status, out))
    put(room.crates / "tool/src/main.rt", program("five"))
    room.expect("sources as they were in the beginning", 1, "five")


def waits_for_the_gate(room):
    """While another holds the folder's lock, as ./test does for `rt ci`, which sets aside what is built, nothing is proved."""
    held = os.open(room.repository, os.O_RDONLY)
    fcntl.flock(held, fcntl.LOCK_EX)
    shutil.rmtree(room.target)
    put(room.said, "")
    with open(room.said, "a") as said:
        waiting = room.start("tool", said=said)
    began = time.monotonic()
    while not room.said.read_text() and time.monotonic() - began < 20:
        time.sleep(0.1)
    count("waits", re.match(WAITING, room.said.read_text()), room.said.read_text())
    count("proves nothing while it waits", room.calls() == 0)
    os.close(held)
    out = waiting.communicate(timeout=60)[0]
    count("goes on", (waiting.returncode, out, room.calls()) == (0, "five <>\nin\n", 1), (waiting.returncode, out))


def runs_filters(room):
    """A filter's status is its program's, or 1 where that is 0 and it said anything; another program is run in the launcher's place."""
    for name in ("read", "write"):
        for does, source, owed in FILTERS:
            put(room.crates / name / "src/main.rt", source)
            ended = room.run(name, "a b")
            count(f"{name}, a program that {does}", ended == owed, ended)
    put(room.crates / "read/src/main.rt", "kill -9 $$\n")
    status, out, _ = room.run("read")
    count("a filter that is killed", (status, out) == (137, ""), (status, out))
    put(room.crates / "book/src/main.rt", "echo $$\n" + REFUSES)
    room.run("--build", "book")
    started = room.start("book")
    ended = (*started.communicate(timeout=60), started.returncode)
    count("book", ended == (f"{started.pid}\n", "refused 13 at 7\n", 0), ended)
    room.calls()


def ends_filters(room):
    """A signal to the launcher ends a filter's program too, which holds the output; a reader that goes away ends both; nothing is left."""
    put(room.crates / "read/src/main.rt", "echo begun; exec sleep 50\n")
    room.run("--build", "read")
    for number in ENDING:
        started = room.start("read")
        begun = started.stdout.readline()
        started.send_signal(number)
        ended = (begun, *started.communicate(timeout=30), started.returncode)
        count(f"{number.name} to a filter", ended == ("begun\n", "", "", -number), ended)
    put(room.crates / "read/src/main.rt", "exec yes\n")
    with room.start("read") as started:
        started.stdout.readline()
        started.stdout.close()
        status = started.wait(timeout=30)
    count("a filter whose reader goes away", status == 128 + signal.SIGPIPE, status)
    left = list((room.folder / "tmp").iterdir())
    count("nothing is left behind", not left, left)
    room.calls()


def takes_words(room):
    """What the launcher's own words do."""
    put(room.crates / "tool/src/main.rt", program("seven"))
    ended = room.run("--build", "tool")
    count("--build", (ended, room.calls()) == ((0, "", ""), 1), ended)
    room.expect("built before", 0, "seven")
    ended = room.run("tool", "--build")
    count("a word of the program's", ended == (0, "seven <--build>\nin\n", ""), ended)
    status, out, said = room.run("base")
    count("no program", (status, out, said) == (2, "", "bench: no program base\n") and room.calls() == 0, (status, out, said))


with tempfile.TemporaryDirectory() as folder:
    room = Room(Path(folder))
    for part in (four_at_once, proves_by_content, refuses_unproved, runs_nothing_else, proves_what_it_runs, waits_for_the_gate, runs_filters,
                 ends_filters, takes_words):
        part(room)
end()
