#!/usr/bin/env python3
"""Random edits of tables under `edit -t`, for so many seconds: what is saved is read by CFITSIO and astropy as what it was made of.

`cases/soak_tables.py SECONDS [SEED [ROUND [PROGRAM]]]`, by a Python that has astropy, with cc and CFITSIO. Where a reader doesn't open
the table, or reads columns of another type, width or place than before, that is a failure, unless `verify -t` has a finding beside it
that wasn't there: such edits `edit -c -t -w` refuses, and the rest of their lines isn't tried. astropy also stops at columns without names and at two of one name, which the
standard allows: such edits are counted. It also stops at a THEAP in a TABLE that is no number; there the keyword has no meaning, so that
none is tried. The last line has the figures."""
import io
import os
import pathlib
import random
import subprocess
import sys
import tempfile
import time
import warnings

from astropy.io import fits

from fits import header
from program import Program, shown
from tables import P0, front, unit

ELEMENTS = "LXBIJKAEDCMPQ"
WIDTHS = dict(zip("LBIJKAEDCMPQ", (1, 1, 2, 4, 8, 1, 4, 8, 8, 16, 8, 16)))
FIELDS = ["TNULL", "TSCAL", "TZERO", "TDIM", "TDISP", "TUNIT", "TTYPE", "TFORM", "TBCOL"]
VALUES = ["1", "0", "-32768", "2.0", "'I4'", "'(2,2)'", "'m'", "'c1'", "'x-y'", "T", "/ none", "'1J'", "'4A'", "'F8.3'", "'2I'", "5", "9"]


class Round:
    """A table and lines over it, by a seed."""

    def __init__(self, seed):
        self.rng = random.Random(seed)
        self.is_binary = self.rng.random() < 0.7
        self.cards = (self.binary if self.is_binary else self.ascii)().split("|")
        self.file = header(P0) + header("|".join([*self.cards, "END"])) + unit("|".join(self.cards))
        self.lines = [self.line() for _ in range(self.rng.randrange(1, 9))]

    def binary(self):
        rng, width, columns = self.rng, 0, []
        for n in range(1, rng.randrange(2, 8)):
            element, count = rng.choice(ELEMENTS), rng.choice([0, 1, 1, 1, 2, 3, 8])
            if element in "PQ":
                count = min(count, 1)
            width += (count + 7) // 8 if element == "X" else count * WIDTHS[element]
            columns += self.column(n, f"'{'' if count == 1 and rng.random() < 0.5 else count}{element}{'J' if element in 'PQ' else ''}'")
        heap = rng.choice([0, 0, 24])
        return "|".join([front("BINTABLE", axes=(width, 3), pcount=heap), f"TFIELDS = {n:20}", *columns, *self.others()])

    def ascii(self):
        rng, width, columns = self.rng, 0, []
        for n in range(1, rng.randrange(2, 6)):
            size = rng.randrange(1, 12)
            form = rng.choice([f"A{size}", f"I{size}", f"F{size}.{size // 2}", f"E{size}.1", f"D{size}.1"] if size > 3 else [f"A{size}", f"I{size}"])
            columns += [*self.column(n, f"'{form:<8}'"), f"TBCOL{n:<3}= {width + 1:20}"]
            width += size + rng.randrange(2)
        return "|".join([front("TABLE", axes=(width, 3)), f"TFIELDS = {n:20}", *columns, *self.others()])

    def column(self, n, form):
        rng = self.rng
        cards = [f"TTYPE{n:<3}= 'c{n}'", f"TFORM{n:<3}= {form}"]
        rng.shuffle(cards)
        return cards + ([f"TUNIT{n:<3}= 'm'"] if rng.random() < 0.3 else [])

    def others(self):
        return [f"KEY{k}    = {k}" for k in range(self.rng.randrange(3))]

    def line(self):
        """An edit of cards of the table."""
        rng = self.rng
        places, here = len(self.cards), rng.randrange(1, len(self.cards) + 2)
        name = rng.choice([f"{rng.choice(FIELDS)}{rng.randrange(1, 8)}"] * 4 + ["TFIELDS", "THEAP" if self.is_binary else "TNULL1", "EXTNAME", "XTENSION", "KEY0", "ZBITPIX"])
        card = rng.choice([f"{name:<8}= {rng.choice(VALUES)}", rng.choice(self.cards), "COMMENT x"])
        return rng.choice([
            lambda: f"set 2 {name} {rng.choice(VALUES)}",
            lambda: f"set 2 {name} {rng.choice(VALUES)}",
            lambda: f"unset 2 {name}",
            lambda: f"ins 2 {here} {card}",
            lambda: f"put 2 {here} {card}",
            lambda: f"del 2 {here}",
            lambda: f"mov 2 {here} {rng.randrange(1, places + 1)}",
        ])()


def by_cfitsio(reader, file):
    """The columns that CFITSIO reads, or None where it doesn't open the table."""
    with tempfile.NamedTemporaryFile(suffix=".fits") as it:
        it.write(file)
        it.flush()
        ran = subprocess.run([reader, it.name], capture_output=True, check=False)
    return ran.stdout if ran.returncode == 0 else None


def by_astropy(file):
    """The widths and places of the columns that astropy reads, None where it doesn't read the table, or why for their names alone."""
    try:
        with warnings.catch_warnings():
            warnings.simplefilter("ignore")
            with fits.open(io.BytesIO(file)) as hdus:
                columns = hdus[1].columns
                hdus[1].data  # pylint: disable=pointless-statement
                dtype = columns.dtype
                return [(dtype.fields[name][0].itemsize, dtype.fields[name][1]) for name in dtype.names or ()]
    except Exception as why:  # pylint: disable=broad-except
        return "names" if "name" in str(why).lower() or "field" in str(why).lower() else None


def codes(program, file):
    """The codes of a report with tables."""
    return sorted(line.split(b" ")[0] for line in program.tell(["verify", "-t"], file).printed.splitlines()[:-1])


def faults_of(program, reader, of, counts):
    """Where an accepted edit leaves a table that is read otherwise, and nothing is found of it."""
    file = of.file
    for line in of.lines:
        ran = program.edit(file, line.encode("latin-1"), ["edit", "-t"])
        counts["lines"] += 1
        if ran.status not in (0, 1) or ran.saved is None:
            yield f"{line}: it ends with {ran.status}: {ran.reported}"
            return
        if ran.status == 1:
            counts["refused"] += 1
            continue
        for name, read in (("CFITSIO", lambda it: by_cfitsio(reader, it)), ("astropy", by_astropy)):
            before, after = read(file), read(ran.saved)
            if name == "astropy" and after == "names" != before:
                counts["names"] += 1
            elif before not in (None, "names") and after != before:
                if codes(program, ran.saved) == codes(program, file):
                    yield f"{line}: {name} reads {shown(str(after).encode())}, and read {shown(str(before).encode())}"
        if codes(program, ran.saved) != codes(program, file):
            counts["found"] += 1
            return
        file = ran.saved


def main(seconds, seed="1", only=None, path="crates/fitsed/out/fitsed"):
    program, until = Program(path), time.monotonic() + float(seconds)
    counts, rounds, failed = dict.fromkeys(("lines", "refused", "names", "found"), 0), 0, 0
    with tempfile.TemporaryDirectory() as room:
        reader = f"{room}/columns"
        source = os.path.join(os.path.dirname(os.path.abspath(__file__)), "columns.c")
        subprocess.run(["cc", "-O1", "-o", reader, source, "-lcfitsio"], check=True)
        while time.monotonic() < until:
            name = only or str(rounds)
            of = Round(f"{seed}/{name}")
            for line in faults_of(program, reader, of, counts):
                print(f"FAILED: seed {seed}, round {name}: {line}", flush=True)
                failed += 1
            rounds += 1
            if only:
                pathlib.Path("round.fits").write_bytes(of.file)
                break
    print(f"{rounds} rounds, {counts['lines']} edits, {counts['refused']} refused, {counts['names']} that astropy's names stop, {counts['found']} found, {failed} failed")
    return failed != 0


if __name__ == "__main__":
    sys.exit(main(*sys.argv[1:]))
