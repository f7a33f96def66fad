#!/usr/bin/env python3
"""Random files and scripts of every line, for so many seconds: after each line every query answers as a new session does
over what is saved then. A run with less memory ends as the whole one, or out of memory and with nothing saved.

`cases/soak.py SECONDS [SEED [ROUND [PROGRAM]]]`: a seed and a round repeat what was found. The last line has the figures."""
import pathlib
import random
import re
import subprocess
import sys
import tempfile
import time

from fits import BLOCK_LEN, CARD_LEN
from program import Program, differences, shown

NAMES = ["KEY", "OBJECT", "EXTNAME", "EXTVER", "BLANK", "BZERO", "BSCALE", "DATE", "CHECKSUM", "DATASUM", "COMMENT", "NAXIS"]
KINDS = ["u8", "i8", "i16", "u16", "i32", "u32", "i64", "u64"]
MARK = "mark"

# How many bytes of address space a run with less memory has.
FEW_BYTES = (6_000_000, 40_000_000)


class Round:
    """A file and a script, by a seed."""

    def __init__(self, seed):
        self.rng = random.Random(seed)
        self.hdus = self.rng.choice([1, 1, 2, 3, 5])
        self.file = b"".join(self.hdu(first=k == 0) for k in range(self.hdus)) + self.tail()
        self.lines = [self.line() for _ in range(self.rng.randrange(1, 25))]

    def tail(self):
        return self.rng.choice([b""] * 8 + [b"tail", bytes(self.rng.randbytes(100))])

    def hdu(self, first):
        rng = self.rng
        bits = rng.choice([8, 16, 16, 32, 64, -32, -64])
        axes = [rng.choice([0, 1, 2, 3, 7, 40, 700]) for _ in range(rng.choice([0, 1, 1, 2, 3]))]
        while product(axes) > 3000:
            axes.pop()
        kind = "SIMPLE" if first else rng.choice(["IMAGE", "IMAGE", "IMAGE", "TABLE", "BINTABLE", "FOREIGN"])
        groups = first and rng.random() < 0.1 and len(axes) > 1
        cards = ["SIMPLE  =                    T" if first else f"XTENSION= '{kind:<8}'"]
        cards += [self.integer("BITPIX", bits), self.integer("NAXIS", len(axes))]
        if groups:
            axes[0] = 0
        cards += [self.integer(f"NAXIS{k}", axis) for k, axis in enumerate(axes, 1)]
        parameters, count = 0, 1
        if groups:
            parameters, count = rng.choice([0, 1, 5]), rng.choice([0, 1, 2])
            cards.append("GROUPS  =                    T")
        elif not first and rng.random() < 0.2:
            parameters = rng.choice([1, 3000])
        if groups or (not first and rng.random() < 0.9):
            cards += [self.integer("PCOUNT", parameters), self.integer("GCOUNT", count)]
        else:
            parameters = 0
        size = abs(bits) // 8 * count * (parameters + product(axes[1:] if groups else axes))
        if not axes and not parameters:
            size = 0
        if rng.random() < 0.04:
            cards[rng.randrange(len(cards))] = next(self.cards())
        cards += [card for _ in range(rng.randrange(12)) for card in self.cards()]
        front = b"".join(card.ljust(CARD_LEN).encode("latin-1")[:CARD_LEN] for card in [*cards, "END"])
        fill = b" " if rng.random() < 0.95 else b"\0"
        data = rng.randbytes(size)
        return front + fill * (-len(front) % BLOCK_LEN) + data + bytes(-len(data) % BLOCK_LEN)

    def integer(self, name, number):
        """A mandatory card, as a rule in fixed format."""
        return f"{name:<8}= {number:>20}" if self.rng.random() < 0.97 else f"{name:<8}= {number} / free"

    def cards(self):
        rng = self.rng
        name = rng.choice(NAMES)
        if rng.random() < 0.15:
            yield "".join(chr(rng.randrange(32, 127) if rng.random() < 0.97 else rng.randrange(256)) for _ in range(rng.randrange(80)))
        elif rng.random() < 0.2:
            yield f"{name:<8}= 'abc&'"
            yield from (f"CONTINUE  '{rng.choice('xyz')}&' / {k}" for k in range(rng.randrange(3)))
        else:
            yield f"{name:<8}= {self.field()}"

    def field(self):
        rng = self.rng
        return rng.choice([
            "T", "F", "7", "-32768", "32768", "3.2768E4", "1e3", "(1, 2.)", "", "/ none", "'it''s' / c", "''", "'2024-02-30'",
            "'2024-02-29T23:59:60.5'", "'29/02/00'", f"'{'long ' * rng.randrange(1, 40)}'", str(rng.randrange(-300, 70_000)), "'open", "TRUE",
        ])

    def line(self):
        """A line of the script: of every kind, and now and then of none."""
        rng = self.rng
        hdu, place = rng.randrange(self.hdus + 2), rng.randrange(1, 20)
        pixels = [f"{at}:{at + rng.randrange(3)}" for at in (rng.randrange(1, 8) for _ in range(rng.choice([1, 1, 2, 3])))]
        card = next(iter(self.cards()), "COMMENT").rstrip()
        return rng.choice([
            lambda: f"ins {hdu} {place} {card}",
            lambda: f"put {hdu} {place} {card}",
            lambda: f"del {hdu} {place}",
            lambda: f"mov {hdu} {place} {rng.randrange(1, 20)}",
            lambda: f"set {hdu} {rng.choice(NAMES)} {self.field()}",
            lambda: f"set {hdu} {rng.choice(NAMES)} {self.field()}",
            lambda: f"unset {hdu} {rng.choice(NAMES)}",
            lambda: f"fill {hdu} {','.join(pixels)} {rng.randrange(-300, 70_000)}",
            lambda: f"write {hdu} {pixels[0]} {' '.join(str(rng.randrange(-300, 300)) for _ in range(rng.randrange(1, 4)))}",
            lambda: f"stamp {hdu}",
            lambda: f"{rng.choice(['keep', 'keep', 'release'])} {hdu}",
            lambda: f"new {rng.randrange(1, self.hdus + 3)} {rng.choice(KINDS)} {rng.choice(['-', '3', '2,2', '1441', '0', '7,x'])}",
            lambda: f"reshape {hdu} {rng.choice(KINDS)} {rng.choice(['-', '3', '2,2', '1441', '0', '2,3,1', '7,x'])}",
            lambda: f"rm {hdu}",
            lambda: "".join(chr(rng.randrange(32, 127)) for _ in range(rng.randrange(30))),
        ])().replace("\n", " ")

    def queries(self):
        """All that is asked after each line."""
        return ["off", "rep"] + [
            f"{word} {hdu}{rest}"
            for hdu in range(self.hdus + 4)
            for word, rest in [("stat", ""), ("sum", ""), ("rect", " 1:2"), ("rect", " 1:1,1:2"), ("rect", " 1:1,1:1,1:1")]
            + [(word, f" {name}") for word in ("get", "pos") for name in NAMES]
        ]


def product(axes):
    result = 1
    for axis in axes:
        result *= axis
    return result


def faults_of(program, of):
    """Where a round comes to what it shouldn't, and how many runs it took."""
    queries = of.queries()
    asked = program.edit(of.file, script(line for it in of.lines for line in [it, MARK, *queries, MARK]))
    if asked.status == 2:
        yield from unopened(program, of.file, asked)
        return
    if asked.status not in (0, 1):
        yield f"it ends with {asked.status}: {asked.reported}"
        return
    printed = asked.printed.decode("latin-1")
    for k, answer in enumerate(answers(printed, len(of.lines), len(queries) + 3)):
        ran = program.edit(of.file, script(of.lines[: k + 1]))
        fresh = program.edit(ran.saved, script(queries))
        for line in differences(fresh, printed=answer.encode("latin-1"), reported=b""):
            yield f"after line {k + 1}, {of.lines[k]!r}: {line}"
    yield from differences(asked, saved=ran.saved, reported=b"")
    yield from with_few_bytes(program, of, ran)


def unopened(program, file, asked):
    """Where a file that doesn't open is said to otherwise."""
    for words in (["list"], ["verify"], ["sum"]):
        yield from differences(program.tell(words, file), status=2, printed=b"", reported=asked.reported)
    yield from differences(asked, printed=b"", saved=None)


def with_few_bytes(program, of, whole):
    """Where a run with less memory ends otherwise than the whole one, or out of memory and with nothing saved."""
    most = of.rng.randrange(*FEW_BYTES)
    with tempfile.TemporaryDirectory() as room:
        path = pathlib.Path(room)
        (path / "in.fits").write_bytes(of.file)
        words = ["prlimit", f"--as={most}", program.path, "edit", "in.fits", "out.fits"]
        ran = subprocess.run(words, cwd=room, input=script(of.lines), capture_output=True, timeout=60)
        saved = (path / "out.fits").read_bytes() if (path / "out.fits").exists() else None
    if ran.returncode == 3 and ran.stderr == b"fitsed: no memory\n":
        if saved is not None or not whole.printed.startswith(ran.stdout):
            yield f"out of memory with {most} bytes it prints {shown(ran.stdout)} and saves {shown(saved)}"
    elif b"shared librar" not in ran.stderr and (ran.returncode, ran.stdout, saved) != (whole.status, whole.printed, whole.saved):
        yield f"with {most} bytes it ends with {ran.returncode}, {ran.stderr}"


def script(lines):
    return "\n".join(lines).encode("latin-1")


def answers(printed, count, step):
    """What the queries after each line answered, numbered as a script of their own."""
    at = 0
    for first in range(2, count * step, step):
        opening, closing = (f"line {mark}: not a command\n" for mark in (first, first + step - 2))
        begin = printed.index(opening, at) + len(opening)
        at = printed.index(closing, begin)
        yield re.sub(r"(?m)^line (\d+):", lambda it: f"line {int(it[1]) - first}:", printed[begin:at])


def main(seconds, seed="1", only=None, path="crates/fitsed/out/fitsed"):
    program = Program(path)
    until = time.monotonic() + float(seconds)
    rounds = lines = opened = failed = 0
    while time.monotonic() < until:
        name = only or str(rounds)
        of = Round(f"{seed}/{name}")
        found = list(faults_of(program, of))
        for line in found:
            print(f"FAILED: seed {seed}, round {name}: {line}", flush=True)
        failed += bool(found)
        rounds, lines = rounds + 1, lines + len(of.lines)
        opened += program.edit(of.file, b"").status == 0
        if only:
            break
    print(f"seed {seed}: {rounds} files, of which {opened} open, and {lines} lines; {rounds - failed} passed, {failed} failed")
    return failed > 0


sys.exit(main(*sys.argv[1:]))
