#!/usr/bin/env python3
"""Holds the tool edits.py to what it says: rows of edits of fits_sum, tried together, each with what it has to come to.

A row fails where the tool says otherwise. The last line is 'N passed, M failed'.
"""
import importlib.machinery
import os
import sys
import tempfile
import types

sys.dont_write_bytecode = True
HERE = os.path.dirname(os.path.abspath(__file__))
edits = types.ModuleType("edits")
edits.__file__ = f"{HERE}/edits.py"
importlib.machinery.SourceFileLoader("edits", edits.__file__).exec_module(edits)

ENCODE, CHARACTERS = "fits_sum::checksum_text::encode", "fits_sum::checksum_text::characters_of"
WRONG = (CHARACTERS, "first + n, quarter - n, quarter + m", "first + n, quarter, quarter + m")
SAME = (ENCODE, "(u32::MAX - sum)", "(u32::MAX - 0 - sum)")

# Rows that are tried by one check: an edit, and how its answer begins; none where it is refused.
ROWS = [
    [("means the same", SAME, "NOT REFUSED")],
    [("means the same, beside a wrong body of what it calls", SAME, "NOT REFUSED"), ("a wrong body that is called", WRONG, None)],
    [
        ("isn't compiled", (ENCODE, "(u32::MAX - sum)", "(u32::MAX - sums)"), "BAD EDIT"),
        ("a wrong body beside one that isn't compiled", WRONG, None),
        ("can't be applied", (ENCODE, "no text of the file", "another"), "BAD EDIT"),
    ],
]


def made(crate, name, of, old, new):
    """An edit of the file of both functions."""
    return edits.Edit(crate, name, f"of: {of}\nfile: src/checksum_text.rt\nold: {old}\nnew: {new}\n")


def main():
    os.chdir(edits.TOP)
    edits.rtlib.guarded()
    crate = next(it for it in edits.rtlib.crates_below(edits.TOP) if it.name == "fits_sum")
    passed, failed = 0, 0
    with tempfile.TemporaryDirectory(prefix="fitsed-seeds-") as room:
        status, said = edits.check(crate, {}, {ENCODE, CHARACTERS}, f"{room}/seed")
        if status:
            print(f"FAILED: fits_sum isn't proved: {said[-300:]}")
            failed += 1
        for rows in ROWS if not status else []:
            wanted = {made(crate, name, *texts): begins for name, texts, begins in rows}
            parts, answers = edits.batches(list(wanted))
            for part in parts:
                answers.update(edits.answers_of(f"{room}/seed", crate, part))
            for it, begins in wanted.items():
                goals, why = answers[it]
                if why.startswith(begins) if begins else goals:
                    passed += 1
                else:
                    failed += 1
                    print(f"FAILED: {it.name}: {why or goals}")
    print(f"{passed} passed, {failed} failed")
    return 1 if failed else 0


if __name__ == "__main__":
    sys.exit(main())
