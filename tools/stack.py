#!/usr/bin/env python3
"""How much stack each call may use at most, worked out from its machine code for x86-64.

    tools/stack.py [FILE]          prints a table of the calls in crates/exports/out/libexports.a, or in another archive, or of a program's `main`
    tools/stack.py --check [FILE]  says whether every call needs less than 2 MiB, and no more than docs/ARCHITECTURE.md has for it

A function's frame is what all its pushes and subtractions from the stack pointer take together, which is never less than what it has at one time. A
call needs the frames on its deepest path, with a return address for each. A path that comes back to where it was is refused, unless TURNS says how
often it may, and so is any other change of the stack pointer that takes more. A function of the C library is taken to need a page.
"""
import re
import shutil
import subprocess
import sys
from functools import lru_cache
from pathlib import Path

ROOT = Path(__file__).resolve().parent.parent
ARCHIVE, PAGE = ROOT / "crates/exports/out/libexports.a", ROOT / "docs/ARCHITECTURE.md"
LIMIT, OUTSIDE, ADDRESS = 2 << 20, 4096, 8
HEAD = "| Call | KiB of stack at most |"
FUNCTION, INSTRUCTION = re.compile(r"^[0-9a-f]+ <(.+)>:$"), re.compile(r"^\s*([0-9a-f]+):\s+([a-z]\S*)\s*(.*?)(?:\s+# .*)?$")
RELOCATION = re.compile(r"^\s+[0-9a-f]+:\s+R_X86_64_(\w+)\s+(.+?)(?:[-+]0x[0-9a-f]+)?$")
# functions that call themselves, and how often they are on the stack at most: once for each of a gate's four pins
TURNS = {"drawing::pins::read_pins": 4}
# where a call leads that names no function
BY_POINTER = "a pointer at"


class Unknown(Exception):
    """What this tool cannot work out."""


def disassembler():
    """A program that takes x86-64 machine code apart, or nothing."""
    return next(filter(None, map(shutil.which, ["objdump", "x86_64-linux-gnu-objdump", "llvm-objdump", "llvm-objdump-14"])), None)


class Code:
    """A function's instructions, as address, word and operands, and the functions that they lead to."""

    def __init__(self, name):
        """A function with no instruction yet."""
        self.name, self.instructions, self.callees = name, [], set()

    def add(self, address, word, operands):
        """One more instruction. A call or a jump leads where its operand says, and a call by a pointer nowhere that is known."""
        self.instructions.append((address, word, operands))
        target = re.search(r"<(.+?)(\+0x[0-9a-f]+)?>$", operands)
        is_own = target and target[1] == self.name and (word != "call" or target[2])
        if target and leads(word) and not is_own:
            self.callees.add(target[1])
        elif word == "call" and operands.startswith("*"):
            self.callees.add(f"{BY_POINTER} {address:x}")

    def relocated(self, kind, target):
        """The last instruction leads to what the linker puts there; what it reads from data that is not the linker's own table is a pointer."""
        address, word, operands = self.instructions[-1]
        if leads(word):
            pointer = f"{BY_POINTER} {address:x}"
            is_known = kind.startswith("GOTPCREL") or not operands.startswith("*")
            self.callees = self.callees - {pointer} | {re.sub(r"^\.text\.", "", target) if is_known else pointer}


def leads(word):
    """Whether an instruction may lead to another function."""
    return word == "call" or word.startswith("j")


def functions(path):
    """The functions of a file, by name."""
    tool = disassembler()
    listing = subprocess.run([tool, "-d", "-r", "--no-show-raw-insn", str(path)], capture_output=True, text=True, check=True).stdout
    found, code = {}, None
    for line in listing.splitlines():
        header, instruction, relocation = FUNCTION.match(line), INSTRUCTION.match(line), RELOCATION.match(line)
        if header:
            code = found[header[1]] = Code(header[1])
        elif relocation and code:
            code.relocated(relocation[1], relocation[2])
        elif instruction and code:
            word = re.sub(r"^(push|pop|call|sub|add|mov|cmp)q$", r"\1", instruction[2])
            code.add(int(instruction[1], 16), word, re.sub(r"\s", "", instruction[3]))
    return found


def probed(name, after):
    """What a loop takes that touches each page of a large frame, from what follows `mov %rsp,%r11` on, beside its step, which counts by itself."""
    (_, first, size), (start, second, step), _, (_, third, held), (_, fourth, back) = after[:5]
    is_loop = (first, second, third, held, fourth) == ("sub", "sub", "cmp", "%r11,%rsp", "jne") and size.endswith(",%r11") and step.endswith(",%rsp")
    if not is_loop or int(re.match(r"[0-9a-fx]+", back)[0], 16) != start:
        raise Unknown(f"{name} copies the stack pointer: {after[:5]}")
    return number(size) - number(step)


def number(operands):
    """The number in front of the operands."""
    return int(re.match(r"\$(-?(?:0x)?[0-9a-f]+),", operands)[1], 0)


def taken(name, word, operands):
    """What an instruction takes of the stack."""
    if word.startswith("push"):
        return ADDRESS
    if word in ("pop", "cmp", "test") or not re.search(r"(^|,)%rsp$", operands):
        return 0
    if word in ("sub", "add") and operands.startswith("$"):
        size = number(operands)
        return max(0, size if word == "sub" else -size)
    raise Unknown(f"{name} changes the stack pointer: {word} {operands}")


def frame(code):
    """What a function's pushes and subtractions take together."""
    total = loops = 0
    for i, (_, word, operands) in enumerate(code.instructions):
        total += taken(code.name, word, operands)
        if (word, operands) == ("mov", "%rsp,%r11"):
            total, loops = total + probed(code.name, code.instructions[i + 1:]), loops + 1
    if sum(word == "cmp" and operands.endswith(",%rsp") for _, word, operands in code.instructions) != loops:
        raise Unknown(f"{code.name} takes stack in a loop of another form")
    return total


def needs(found, entries):
    """What each entry needs at most, by its name."""
    open_calls = []

    @lru_cache(maxsize=None)
    def need(name):
        """What a function needs, its return address included."""
        if name in open_calls or name.startswith(BY_POINTER):
            raise Unknown(f"{' calls '.join(open_calls)} calls {name}")
        if name not in found or name.endswith("@plt"):
            return OUTSIDE
        open_calls.append(name)
        below = found[name].callees - ({name} if name in TURNS else set())
        most = TURNS.get(name, 1) * (ADDRESS + frame(found[name])) + max(map(need, sorted(below)), default=0)
        open_calls.pop()
        return most

    return {name: need(name) for name in entries}


def table(needed):
    """The table of the page: KiB, rounded up."""
    return "\n".join([HEAD, "|---|---|", *(f"| `{name}` | {-(-size // 1024):,} |" for name, size in needed.items())])


def faults(needed):
    """What is wrong with the calls or with the page's table."""
    listed = PAGE.read_text().partition(HEAD)[2].partition("\n\n")[0]
    rows = {name: int(size.replace(",", "")) for name, size in re.findall(r"^\| `(\w+)` \| ([0-9,]+) \|$", listed, re.M)}
    for name, size in needed.items():
        if size >= LIMIT:
            yield f"{name} may need {size:,} bytes, which is not under 2 MiB"
        if 1024 * rows.get(name, 0) < size:
            yield f"{PAGE.name} has {rows.get(name, 'nothing')} for {name}, which may need {size:,} bytes"
    yield from (f"{PAGE.name} has {name}, which is no call" for name in rows if name not in needed)


def main(words):
    """Prints the table, or holds it to the page."""
    path = Path(next((word for word in words if word != "--check"), ARCHIVE))
    if not path.exists():
        raise SystemExit(f"stack: no {path}: rt lib in crates/exports writes the archive")
    if disassembler() is None:
        raise SystemExit("stack: no objdump for x86-64: the package binutils-x86-64-linux-gnu has one")
    found = functions(path)
    # a program's own code begins where `main` of its start-up code jumps to
    entries = sorted(name for name in found if name.startswith("fortizembo_") or name.endswith("::main+start"))
    if not entries:
        raise SystemExit(f"stack: no call and no program in {path}")
    needed = needs(found, entries)
    if "--check" not in words:
        print(table(needed))
        return 0
    wrong = list(faults(needed))
    print("\n".join(wrong) or f"{len(needed)} calls, {max(needed.values()):,} bytes of stack at most")
    return 1 if wrong else 0


if __name__ == "__main__":
    try:
        sys.exit(main(sys.argv[1:]))
    except Unknown as fault:
        raise SystemExit(f"stack: {fault}")
