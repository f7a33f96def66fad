"""Names each lemma that no line of specs, proofs or code names, but for imports and its own lines.

It goes by words: a lemma stays unseen where another crate uses the same word, or where two unused ones name each
other. Pages called ...Facts.antt hold worked rows of the standard, which are there to be proved and not to be used.

Of the refused bodies crates/NAME/refused/*.edit it names each that can't be made: its function is missing, an old text doesn't
stand once in its file, where the texts before it are made, or its new text is the same. A crate has 25 of them at most, and all
crates have 285: one for each meaning of a public call, since each is paid whenever its crate changes. None is tried here. The
last line counts the lemmas that are named and the bodies that can be made, and what fails.
"""

import collections
import pathlib
import re
import sys

ROOT = pathlib.Path(__file__).resolve().parent.parent
WORD = re.compile(r"[^\s(){}\[\],.;:|=@]+")
# The most refused bodies of a crate, and of all.
MOST_OF_CRATE, MOST = 25, 285


def sources():
    """Every file of specs, proofs and code."""
    for path in sorted(ROOT.glob("crates/*/*/**/*")):
        if path.suffix in (".antt", ".rt") and "out" not in path.parts:
            yield path


def is_page(path):
    """Whether lemmas of this file are there to be used."""
    return path.parent.name == "proofs" and not path.name.endswith("Facts.antt")


def declarations(path):
    """The lines of a file, each with the name of the lemma that it belongs to, and whether it declares it."""
    name = None
    for number, line in enumerate(path.read_text().splitlines(), 1):
        if line.startswith(("--", "use ", "pub use ")):
            continue
        words = line.removeprefix("pub ").split()
        starts = line and not line[0].isspace() and line[0] not in ")}]|" and words[0] != "unfolding"
        ruleset = starts and words[0] == "ruleset"
        if starts:
            name = words[1] if ruleset else words[0]
        yield number, line, name, bool(ruleset or starts and words[1:2] == [":"])


def unused():
    """How many lemmas are named, and what fails: each that isn't."""
    users, lemmas = {}, []
    for path in sources():
        for number, line, name, declares in declarations(path):
            owner = (path, name if path.suffix == ".antt" else None)
            for word in WORD.findall(line):
                users.setdefault(word, set()).add(owner)
            if declares and is_page(path):
                lemmas.append((name, path, number))
    faults = [
        f"{path.relative_to(ROOT)}:{number}: nothing uses {name}"
        for name, path, number in lemmas
        if not users[name] - {(path, name)}
    ]
    return len(lemmas) - len(faults), faults


def read_body(path):
    """The function that a refused body turns, and its texts in turn: the file of each, the old one and the new one."""
    function = file = old = None
    texts = []
    for line in path.read_text().splitlines():
        word, _, rest = line.partition(":")
        rest = rest.removeprefix(" ")
        if word == "of":
            function = rest.strip()
        elif word == "file":
            file = rest.strip()
        elif word == "old":
            old = rest
        elif word == "new":
            texts.append((file, old, rest))
    return function, texts


def has_function(path, function):
    """Whether a file has a function of this name: the word after its last colons."""
    return re.search(rf"\bfn {re.escape(function.rpartition('::')[2])}\b", path.read_text()) is not None


def fault_of(path):
    """Why a refused body can't be made, or None."""
    crate = path.parent.parent
    function, texts = read_body(path)
    if not (function and texts):
        return "it has no line `of:`, or no pair of `old:` and `new:`"
    made = {}
    for file, old, new in texts:
        if not (file and (crate / file).is_file()):
            return f"there is no file {file}"
        text = made.get(file) or (crate / file).read_text()
        if not old or text.count(old) != 1:
            return f"its old text stands in {file} {text.count(old) if old else 0} times, and not once"
        if old == new:
            return f"its new text of {file} is the old one"
        made[file] = text.replace(old, new)
    if not (function.startswith(f"{crate.name}::") and any(has_function(crate / file, function) for file in made)):
        return f"there is no function {function} in {' or '.join(made)}"
    return None


def bodies():
    """How many refused bodies can be made, and what fails: each that can't, and each number of them that is too great."""
    found = [(path, fault_of(path)) for path in sorted(ROOT.glob("crates/*/refused/*.edit"))]
    faults = [f"{path.relative_to(ROOT)}: {why}" for path, why in found if why]
    passed = len(found) - len(faults)
    for folder, count in sorted(collections.Counter(path.parent for path, _ in found).items()):
        if count > MOST_OF_CRATE:
            faults.append(f"{folder.relative_to(ROOT)}: {count} refused bodies, and a crate has {MOST_OF_CRATE} at most")
    if len(found) > MOST:
        faults.append(f"crates: {len(found)} refused bodies, and all have {MOST} at most")
    return passed, faults


def main():
    passed, failed = 0, 0
    for count, faults in (unused(), bodies()):
        passed += count
        failed += len(faults)
        for fault in faults:
            print(f"FAILED: {fault}")
    print(f"{passed} passed, {failed} failed")
    sys.exit(bool(failed))


main()
