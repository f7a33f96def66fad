"""Sums that are right stay right under `edit -s`, and those that are wrong stay as they are, so that a right one vouches for its
HDU; `edit -c -w` saves nothing where a sum would go wrong.

The sums of the files are made by a plain program, after the standard's Appendix J."""
from again import apart
from fits import BLOCK_LEN, CARD_LEN, MANDATORY, PIXEL, header, pixels
from keeping import is_right
from planes import datasum
from program import differences, shown

# The bytes between the digits and the letters, which no checksum has.
PUNCTUATION = b":;<=>?@[\\]^_`"


def encoded(number):
    """A number of 32 bits as sixteen characters."""
    columns = []
    for byte in number.to_bytes(4, "big"):
        column = [byte // 4 + 48 + (byte % 4 if k == 0 else 0) for k in range(4)]
        while any(it in PUNCTUATION for it in column):
            for k in (0, 2):
                if column[k] in PUNCTUATION or column[k + 1] in PUNCTUATION:
                    column[k], column[k + 1] = column[k] + 1, column[k + 1] - 1
        columns.append(column)
    text = bytes(column[k] for k in range(4) for column in columns)
    return (text[-1:] + text[:-1]).decode()


def stamped(cards, data, has_datasum=True):
    """An HDU of these cards and data, with its sums."""
    said = f"|DATASUM = '{str(datasum(data)).ljust(8)}'" if has_datasum else ""
    without = header(cards.replace("|END", f"|CHECKSUM= '{'0' * 16}'{said}|END")) + data
    return without.replace(b"0" * 16, encoded(2**32 - 1 - datasum(without)).encode(), 1)


PRIMARY = f"{MANDATORY}|EXTEND  =                    T|END"
DATA = pixels(2, [7], 0)

# HDUs: both sums right, without data and with; CHECKSUM wrong, since a card was changed; DATASUM wrong, since a pixel was, and
# so CHECKSUM; CHECKSUM right and no DATASUM; no sums.
HDUS = [
    stamped(PRIMARY, b""),
    stamped(PIXEL, DATA),
    stamped(PIXEL.replace("|END", "|COMMENT x|END"), DATA).replace(b"COMMENT x", b"COMMENT y"),
    stamped(PIXEL.replace("|END", "|COMMENT z|END"), DATA)[:-BLOCK_LEN] + pixels(2, [8], 0),
    stamped(PIXEL.replace("|END", "|HISTORY u|END"), DATA, has_datasum=False),
    header(PIXEL) + DATA,
]
RIGHT, WRONG, NONE = (1, 2, 5), (3, 4), (6,)

# Lines that edit an HDU.
EDITS = ["set {h} OBJECT 'M31'", "ins {h} 5 COMMENT more", "del {h} 7", "fill {h} 1:1 5", "reshape {h} i32 2"]


def cases():
    for edit in EDITS:
        for h in range(1, len(HDUS) + 1):
            # the first has no pixels, and in it and the last no card may go
            if edit.startswith(("set", "ins")) or h > 1 and (h < 6 or not edit.startswith("del")):
                yield f"-s, {edit.format(h=h)}", stays, ["-s"], [edit.format(h=h)], {h}, 0
    lines = [f"set {h} OBJECT 'M31'" for h in range(1, len(HDUS) + 1)]
    for options in (["-s"], ["--sums"], ["-s", "-a"], ["-s", "-c"], ["-s", "-v"]):
        yield f"{options}, each is edited", stays, options, lines, set(range(1, len(HDUS) + 1)), 0
    yield "-s, nothing is edited", stays, ["-s"], ["get 1 NAXIS", "sum 3", "del 1 1"], set(), 1
    yield "-s, an edit that is refused", stays, ["-s"], ["fill 2 1:1 99999", "del 2 1"], set(), 1
    for word in ("stamp", "keep"):
        yield f"-s, {word} makes wrong sums right", made_right, word
    yield "-s -v tells of a wrong sum", told_wrong
    yield "without -s a right sum goes wrong", goes_wrong
    yield "-c -w of a sum that goes wrong", checked
    yield "-c -w of several, with an error too", checked_of_several
    yield "-c -w -s", checked_and_kept


def each(what):
    """The HDUs of a file, as headers and data: each header fills a block, and each data unit but the first."""
    ends = [BLOCK_LEN, *range(3 * BLOCK_LEN, len(what) + 1, 2 * BLOCK_LEN)]
    return [what[start:end] for start, end in zip([0, *ends], ends)]


def sums_of(hdu):
    """The cards of its sums."""
    cards = [hdu[at : at + CARD_LEN] for at in range(0, BLOCK_LEN, CARD_LEN)]
    return [card for card in cards if card.startswith((b"DATASUM ", b"CHECKSUM"))]


def stays(program, options, lines, edited, status):
    """Where of the HDUs one that was right isn't, the sums of another are touched, or one that no line edits has other bytes."""
    words = ["edit", *options, *(word for line in lines for word in ("-e", line)), "-i", "a.fits"]
    ran, after = program.over(words, {"a.fits": b"".join(HDUS)}, b"")
    yield from differences(ran, status=status)
    found = each(after["a.fits"])
    if len(found) != len(HDUS):
        yield f"it has {len(found)} HDUs"
    for h, (hdu, old) in enumerate(zip(found, HDUS), 1):
        if (hdu != old) != (h in edited):
            yield f"HDU {h} is {'the same' if hdu == old else 'another'}"
        if h in edited and h in RIGHT and not is_right(hdu[:BLOCK_LEN], hdu[BLOCK_LEN:]):
            yield f"HDU {h} has wrong sums: {shown(sums_of(hdu))}"
        if h not in RIGHT and sums_of(hdu) != sums_of(old):
            yield f"HDU {h} has other sums: {shown(sums_of(hdu))}"


def made_right(program, word):
    """Where a line that says so doesn't make sums right."""
    for h in (*WRONG, *NONE):
        ran, after = program.over(["edit", "-s", "-e", f"{word} {h}", "-i", "a.fits"], {"a.fits": b"".join(HDUS)}, b"")
        hdu = each(after["a.fits"])[h - 1]
        if ran.status != 0 or not is_right(hdu[:BLOCK_LEN], hdu[BLOCK_LEN:]):
            yield f"HDU {h} has wrong sums: {shown(sums_of(hdu))}"


def told_wrong(program):
    """Where -v doesn't tell once of each file which sums were wrong."""
    files = {"a.fits": b"".join(HDUS[:3]), "b.fits": b"".join(HDUS[:2])}
    set_ = ["edit", "-s", "-v", "-i", "-e", "set 1 OBJECT 'M31'"]
    why = "CHECKSUM was wrong before, and isn't touched\n"
    for names, told in ((["a.fits"], f"fitsed: hdu 3: {why}"), (["b.fits"], ""), (["a.fits", "b.fits"], f"fitsed: a.fits: hdu 3: {why}")):
        ran, _ = program.over([*set_, *names], {name: files[name] for name in names}, b"")
        yield from apart(ran, {}, {"status": 0, "printed": b"", "reported": told.encode()}, {})


def goes_wrong(program):
    """Where a sum is made right that nobody asked for."""
    ran, after = program.over(["edit", "-e", "set 1 OBJECT 'M31'", "-i", "a.fits"], {"a.fits": HDUS[0]}, b"")
    yield from apart(ran, {}, {"status": 0, "printed": b"", "reported": b""}, {})
    if sums_of(after["a.fits"]) != sums_of(HDUS[0]):
        yield f"it is {shown(after['a.fits'])}"


def checked(program):
    """Where a file is saved with a new warning, though warnings count, or isn't told."""
    words, files = ["edit", "-i", "-c", "-e", "set 1 OBJECT 'M31'", "a.fits"], {"a.fits": HDUS[0]}
    ends = {"status": 1, "printed": b"+W24 1 0 CHECKSUM is wrong\n", "reported": b"fitsed: a.fits: not saved: 1 new warning\n"}
    for more in (["-w"], ["--warnings"]):
        ran, after = program.over([*words, *more], files, b"")
        yield from apart(ran, after, ends, files)
    # without it warnings don't
    ran, after = program.over(words, files, b"")
    yield from apart(ran, {}, {"status": 0, "printed": b"", "reported": b""}, {})


def checked_of_several(program):
    """Where errors and warnings aren't counted apart, or a warning that was there before counts."""
    files = {"a.fits": HDUS[0], "b.fits": HDUS[0].replace(b"EXTEND  =                    T", b"EXTEND  =                    F")}
    words = ["edit", "-i", "-c", "-w", "-e", "set 1 DATE '2024-02-30'", *files]
    printed = "a.fits:+W24 1 0 CHECKSUM is wrong\na.fits:+E12 1 7 bad date\nb.fits:+E12 1 7 bad date\n"
    reported = "fitsed: a.fits: not saved: 1 new error and 1 new warning\nfitsed: b.fits: not saved: 1 new error\n"
    ran, after = program.over(words, files, b"")
    return apart(ran, after, {"status": 1, "printed": printed.encode(), "reported": reported.encode()}, files)


def checked_and_kept(program):
    """Where a sum that stays right keeps a file from being saved."""
    ran, after = program.over(["edit", "-i", "-c", "-w", "-s", "-e", "set 1 OBJECT 'M31'", "a.fits"], {"a.fits": HDUS[0]}, b"")
    yield from apart(ran, {}, {"status": 0, "printed": b"", "reported": b""}, {})
    if not is_right(after["a.fits"], b""):
        yield f"its sums are {shown(sums_of(after['a.fits']))}"
