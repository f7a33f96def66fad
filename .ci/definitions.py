#!/usr/bin/env python3
"""Prints docs/DEFINITIONS.md: each definition of specs/ that a row of docs/PROVED.md has in parentheses, with the comment above it, by crate.

`--check` prints what fails instead: a page that isn't what would be printed, a row that is too long, a definition that specs/ doesn't
have once, and a file, or a function, type or clause of one, that isn't there. Its last line is 'N passed, M failed'."""

import collections
import pathlib
import re
import sys

ROOT = pathlib.Path(__file__).resolve().parent.parent
PAGE, PROMISES = ROOT / "docs/DEFINITIONS.md", ROOT / "docs/PROVED.md"
# The most characters of a row.
MOST = 300

# The first line of a definition; in a row a part in parentheses, a name, and a file.
HEAD = re.compile(r"(?:(?:pub|abbrev|unfoldable|record) )+([A-Za-z_]\w*) ")
PART = re.compile(r"\(([^()]*)\)")
NAME = re.compile(r"`([\w:.]+)`")
FILE = re.compile(r"\b(fitsed|fits_\w+)/([\w/]+\.rt)\b")

FRONT = """\
# Definitions

What [PROVED.md](PROVED.md) names of `specs/`, by crate: the name, its file there, and the comment above it; some go on from the one before.
Whoever trusts a promise reads the definitions of its row. A number is a section of FITS Standard 4.0; (own) marks what the standard leaves
to us. `.ci/definitions.py` prints this page, and the gate compares it.
"""


def crates():
    """Each crate, lowest first, with the comment above it."""
    comment = ""
    for line in (ROOT / "crates.txt").read_text().splitlines():
        if line.startswith("# "):
            comment = line[2:]
        else:
            yield line.partition(":")[0].split()[0], comment


def definitions(crate):
    """The definitions of a crate that have a comment: the file, the name and the comment of each."""
    for path in sorted((ROOT / "crates" / crate / "specs").glob("*.antt")):
        comment = []
        for line in path.read_text().splitlines():
            head = HEAD.match(line)
            if head and comment:
                yield path.stem, head[1], " ".join(comment)
            comment = [*comment, line[3:]] if line.startswith("-- ") else []


def rows():
    """The rows of PROVED's tables: the whole of each, the definitions that it names, and what else stands behind its promise."""
    for line in PROMISES.read_text().splitlines():
        if line.startswith("| ") and line != "| promise | contract |":
            behind = line.removesuffix(" |").rpartition(" | ")[2]
            yield line, NAME.findall(" ".join(PART.findall(behind))), PART.sub("", behind)


def page():
    """The page as it is to be. A name that several files have is written with its file before it: `Field.ReadsAs`."""
    named = {name for _, names, _ in rows() for name in names}
    parts = [FRONT]
    for crate, comment in crates():
        lines = [
            f"- `{name}`, {file}: {said}\n"
            for file, name, said in definitions(crate)
            if name in named or f"{file}.{name}" in named
        ]
        if lines:
            parts.append(f"\n## {crate}: {comment}\n\n" + "".join(lines))
    return "".join(parts)


def stands_in(name, texts):
    """Whether one of these texts has it: `Type::function.clause`, or a part of that."""
    name, _, clause = name.partition(".")
    word = name.rpartition("::")[2]
    return (not word or any(re.search(rf"\b(?:fn|struct|enum|trait) {word}\b", it) for it in texts)) and (
        not clause or any(f"ensures {clause} {{" in it for it in texts)
    )


def faults():
    """What is looked at: a fault of each, or None."""
    yield None if PAGE.read_text() == page() else f"{PAGE.name} isn't what .ci/definitions.py prints"
    counts = collections.Counter()
    for crate, _ in crates():
        for file, name, _ in definitions(crate):
            counts.update([name, f"{file}.{name}"])
    for row, names, behind in rows():
        yield f"{len(row)} characters: {row}" if len(row) > MOST else None
        for name in names:
            yield None if counts[name] == 1 else f"{counts[name]} definitions of {name}: {row}"
        paths = [ROOT / "crates" / crate / "src" / file for crate, file in FILE.findall(behind)]
        missing = [it for it in paths if not it.is_file()]
        yield f"a file isn't there: {row}" if missing or not paths else None
        texts = [it.read_text() for it in paths if it not in missing]
        for name in NAME.findall(behind):
            yield None if counts[name] == 1 or stands_in(name, texts) else f"{name} isn't there: {row}"


def main():
    if sys.argv[1:] != ["--check"]:
        print(page(), end="")
        return
    found = list(faults())
    failed = [it for it in found if it]
    for fault in failed:
        print(f"FAILED: {fault}")
    print(f"{len(found) - len(failed)} passed, {len(failed)} failed")
    sys.exit(bool(failed))


main()
