#!/usr/bin/env python3
"""An answer that memory was refused is passed on from a call that was given memory, and never made up for a case that can't be.

No line of the sources makes an AllocError, but an arm that turns another type's `Memory`, or std's `OutOfMemory`, into
it. And none makes a `Memory` of the types that stand for one, but an arm over another, the `From` of an AllocError, or
what follows a call that was given memory."""
import pathlib
import re
import sys

# Memory that is given by name, or asked for by what holds an allocator.
GIVEN = r"\balloc\b|\bAllocError\b|\bAllocFailed\b|OutOfMemory|\.(push|extend_from_slice|reserve)\("

SOURCES = [path for path in sorted(pathlib.Path("crates").glob("*/src/**/*.rt")) if not path.parts[1].startswith("fits_tests")]

# The functions that answer so themselves.
# (what they are given may be an array, `[u8; 2880]`)
ANSWERS = {name for path in SOURCES for name, _ in re.findall(r"fn (\w+)((?:[^{;]|; \w+\])*?)AllocError", path.read_text())}


def statement(lines, at):
    """The text from the beginning of the statement, the match or the function that this line is an arm or the end of."""
    depth = 0
    for begin in range(at, max(at - 12, -1), -1):
        depth += lines[begin].count("}") - lines[begin].count("{") if begin < at else 0
        if depth <= 0 and re.match(r"\s*(pub(\(crate\))? )?(let|if|match|fn|return match|\S+ = match)\b", lines[begin]):
            return " ".join(lines[begin:at + 1])
    return ""


def is_passed_on(lines, at):
    """Whether a `Memory` that this line makes is that of a call which was given memory, or answers so itself."""
    pattern, arrow, _ = lines[at].partition("=>")
    text = statement(lines, at)
    return arrow and "Memory" in pattern or re.search(GIVEN, text) or ANSWERS & set(re.findall(r"(\w+)\(", text))


def makes(line):
    """Whether a `Memory` is made here, and not asked for by a pattern."""
    made = line.partition("=>")[2] or line
    return "::Memory" in made and not re.search(r"matches!|if let|::Memory (\||=)", made)


passed, faults = 0, []
for path in SOURCES:
    lines = path.read_text().splitlines()
    for number, line in enumerate(lines, 1):
        made_up = f"FAILED: {path}:{number}: memory is refused here by no call"
        if "(AllocError)" in line:
            if re.search(r"(::Memory\)|== ErrorKind::OutOfMemory) => Err\(AllocError\),$", line):
                passed += 1
            else:
                faults.append(made_up)
        elif makes(line):
            if is_passed_on(lines, number - 1):
                passed += 1
            else:
                faults.append(made_up)
print("\n".join(faults + [f"{passed} passed, {len(faults)} failed"]))
sys.exit(bool(faults))
