"""Two files compared: what differs in their headers, their data and what follows."""
from commands import CUT, EMPTY, IMAGES, run, with_cards
from fits import COMMENTS, P0, PIXEL, THREE_PIXELS, changed, file
from program import differences

ONE = with_cards("OBJECT  = 'M 32'|EXPTIME = 1.5|COMMENT x|COMMENT y|FILTER  = 'B'")

# A card changed, one gone, one moved in by another, one more at the end.
OTHER = with_cards("OBJECT  = 'M 31'|EXPTIME = 1.5|COMMENT y|COMMENT z|FILTER  = 'B'|NEW     = 1")

# Where its second HDU begins, and that one's data.
SECOND = 2880 * 2
DATA = 2880 * 3

# Thirty-six cards fill two blocks, and thirty-five one.
FULL = with_cards(COMMENTS)
FULLER = with_cards(f"{COMMENTS}|COMMENT")

# A card that has a byte that isn't text, and one that has another there.
ODD = changed(with_cards("COMMENT ab"), {3 * 80 + 9: 7})
ODDER = changed(with_cards("COMMENT ab"), {3 * 80 + 9: 8})

LONGER = IMAGES[:SECOND] + file(([(PIXEL.replace("                   1|PCOUNT", "                1500|PCOUNT"), 2)], ""))

# Two files, the status, what is printed and what is reported.
ROWS = [
    (ONE, ONE, 0, "", ""),
    (IMAGES, IMAGES, 0, "", ""),
    (ONE, OTHER, 1, "- 1 4 OBJECT  = 'M 32'\n+ 1 4 OBJECT  = 'M 31'\n- 1 6 COMMENT x\n+ 1 7 COMMENT z\n+ 1 9 NEW     = 1\n", ""),
    (OTHER, ONE, 1, "- 1 4 OBJECT  = 'M 31'\n+ 1 4 OBJECT  = 'M 32'\n+ 1 6 COMMENT x\n- 1 7 COMMENT z\n- 1 9 NEW     = 1\n", ""),
    # A card put in before others is one line, and so is one that comes in its old place again.
    (with_cards("A       = 1|B       = 2"), with_cards("C       = 3|A       = 1|B       = 2"), 1, "+ 1 4 C       = 3\n", ""),
    (with_cards("A       = 1|B       = 2|C       = 3"), with_cards("B       = 2|C       = 3|A       = 1"), 1, "- 1 4 A       = 1\n+ 1 6 A       = 1\n", ""),
    (with_cards("A       = 1|A       = 1"), with_cards("A       = 1"), 1, "- 1 5 A       = 1\n", ""),
    # A blank card has its place alone.
    (with_cards(" "), EMPTY, 1, "- 1 4\n", ""),
    (ODD, ODDER, 1, "- 1 4 COMMENT ?b\n+ 1 4 COMMENT ?b\n", ""),
    # One block more of fill is none that differs.
    (FULL, FULLER, 1, "+ 1 36 COMMENT\n", ""),
    (FULLER, FULL, 1, "- 1 36 COMMENT\n", ""),
    # END and the fill.
    (EMPTY, changed(EMPTY, {3 * 80 + 20: 65}), 1, "hdu 1 END or the fill after it differs\n", ""),
    (EMPTY, changed(EMPTY, {2880: 65}), 1, "hdu 1 END or the fill after it differs\n", ""),
    (changed(EMPTY, {2880: 66}), changed(EMPTY, {2880: 65}), 1, "hdu 1 END or the fill after it differs\n", ""),
    # Data: the first byte, the last one of the fill, the second HDU's; of other lengths.
    (IMAGES, changed(IMAGES, {2881: 9}), 1, "hdu 1 data differ at byte 0\n", ""),
    (IMAGES, changed(IMAGES, {SECOND: 9}), 1, "hdu 1 data differ at byte 2879\n", ""),
    (IMAGES, changed(IMAGES, {DATA + 3: 9}), 1, "hdu 2 data differ at byte 2\n", ""),
    (changed(IMAGES, {2890: 9}), changed(IMAGES, {2883: 9, DATA + 1: 9}), 1, "hdu 1 data differ at byte 2\nhdu 2 data differ at byte 0\n", ""),
    (
        IMAGES,
        LONGER,
        1,
        "- 2 4 NAXIS1  =                    1\n+ 2 4 NAXIS1  =                 1500\nhdu 2 data have 2880 bytes and 5760\n",
        "",
    ),
    # HDUs that one has alone, and bytes after the last.
    (IMAGES, IMAGES[:SECOND], 1, "hdu 2 only in A\n", ""),
    (IMAGES[:SECOND], IMAGES + IMAGES[SECOND:], 1, "hdu 2 only in B\nhdu 3 only in B\n", ""),
    (ONE + b"tail", ONE + b"tail", 0, "", ""),
    (ONE + b"tail", ONE + b"tall", 1, "bytes after the last HDU differ\n", ""),
    (ONE, ONE + b"\0", 1, "bytes after the last HDU differ\n", ""),
    (ONE + b"x" * 6000, ONE + b"x" * 6000, 0, "", ""),
    (ONE + b"x" * 6000, ONE + b"x" * 5999 + b"y", 1, "bytes after the last HDU differ\n", ""),
    (ONE + b"x" * 6000, ONE + b"x" * 6001, 1, "bytes after the last HDU differ\n", ""),
    (ONE + b"x" * 5760, ONE + b"x" * 5761, 1, "bytes after the last HDU differ\n", ""),
    # One that doesn't open, the first before the second.
    (b"no", ONE, 2, "", "fitsed: a.fits: open refused O1 NotFits\n"),
    (ONE, b"no", 2, "", "fitsed: b.fits: open refused O1 NotFits\n"),
    (b"no", b"", 2, "", "fitsed: a.fits: open refused O1 NotFits\n"),
    (EMPTY, CUT, 2, "", "fitsed: b.fits: open refused O2 NoEnd hdu 2\n"),
    (IMAGES, IMAGES[:-10], 2, "", "fitsed: b.fits: open refused O4 ShortData hdu 2\n"),
    (IMAGES[:-10], IMAGES, 2, "", "fitsed: a.fits: open refused O4 ShortData hdu 2\n"),
]

# Cards with comments in the place of mandatory ones, and one more after them.
SAID = with_cards("OBJECT  = 'M 32'")
SAID = SAID.replace(b"SIMPLE  =                    T       ", b"SIMPLE  =                    T / fits")
SAID = SAID.replace(b"NAXIS   =                    0       ", b"NAXIS   =                    0 / none")

# The second HDU with a card more.
NAMED = IMAGES[:SECOND] + file(([(PIXEL.replace("|END", "|EXTNAME = 'SCI'|END"), 1)], ""))

# Two files, the status, the script that makes the headers of the first those of the second, and what is reported.
SCRIPTS = [
    (ONE, ONE, 0, "", ""),
    (ONE, OTHER, 1, "put 1 4 OBJECT  = 'M 31'\ndel 1 6\nins 1 7 COMMENT z\nins 1 9 NEW     = 1\n", ""),
    (OTHER, ONE, 1, "put 1 4 OBJECT  = 'M 32'\nins 1 6 COMMENT x\ndel 1 8\ndel 1 9\n", ""),
    # A card put in before others is one line.
    (with_cards("A       = 1|B       = 2"), with_cards("C       = 3|A       = 1|B       = 2"), 1, "ins 1 4 C       = 3\n", ""),
    (with_cards("A       = 1|B       = 2|C       = 3"), with_cards("B       = 2|C       = 3|A       = 1"), 1, "del 1 4\nins 1 6 A       = 1\n", ""),
    # Cards in the place of others come first, then those that are left come in, or go.
    (with_cards("A       = 1|B       = 2"), with_cards("C       = 3|D       = 4|E       = 5"), 1, "put 1 4 C       = 3\nput 1 5 D       = 4\nins 1 6 E       = 5\n", ""),
    (with_cards("A       = 1|B       = 2|C       = 3|D       = 4"), with_cards("E       = 5|D       = 4"), 1, "put 1 4 E       = 5\ndel 1 5\ndel 1 5\n", ""),
    # Mandatory cards that say the same are put, and never deleted.
    (EMPTY, SAID, 1, "put 1 1 SIMPLE  =                    T / fits\nput 1 3 NAXIS   =                    0 / none\nins 1 4 OBJECT  = 'M 32'\n", ""),
    (SAID, EMPTY, 1, "put 1 1 SIMPLE  =                    T\nput 1 3 NAXIS   =                    0\ndel 1 4\n", ""),
    (EMPTY, with_cards(" "), 1, "ins 1 4\n", ""),
    (with_cards("A       = 1"), with_cards(" "), 1, "put 1 4\n", ""),
    (FULL, FULLER, 1, "ins 1 36 COMMENT\n", ""),
    (IMAGES, NAMED, 1, "ins 2 7 EXTNAME = 'SCI'\n", ""),
    # Cards alone are made those of the other, and data aren't looked at.
    (EMPTY, changed(EMPTY, {3 * 80 + 20: 65}), 0, "", ""),
    (IMAGES, changed(IMAGES, {2881: 9}), 0, "", ""),
    (ONE + b"tail", OTHER, 1, "put 1 4 OBJECT  = 'M 31'\ndel 1 6\nins 1 7 COMMENT z\nins 1 9 NEW     = 1\n", ""),
    # A card that no line may put in; one that says another shape; other numbers of HDUs.
    (ODD, ODD, 0, "", ""),
    (ODD, EMPTY, 1, "del 1 4\n", ""),
    (EMPTY, ODD, 2, "", "fitsed: no script: ins 1 4 COMMENT ?b: refused 4 BadText\n"),
    (EMPTY, changed(with_cards("COMMENT ab"), {3 * 80 + 9: 10}), 2, "", "fitsed: no script: ins 1 4 COMMENT ?b: refused 4 BadText\n"),
    (IMAGES, LONGER, 2, "", "fitsed: no script: put 2 4 NAXIS1  =                 1500: refused 6 Shape\n"),
    (IMAGES, IMAGES[:SECOND], 2, "", "fitsed: no script: the files have other numbers of HDUs\n"),
    (b"no", ONE, 2, "", "fitsed: a.fits: open refused O1 NotFits\n"),
    (ONE, b"no", 2, "", "fitsed: b.fits: open refused O1 NotFits\n"),
    (EMPTY, CUT, 2, "", "fitsed: b.fits: open refused O2 NoEnd hdu 2\n"),
    (CUT, EMPTY, 2, "", "fitsed: a.fits: open refused O2 NoEnd hdu 2\n"),
    (IMAGES, IMAGES[:-10], 2, "", "fitsed: b.fits: open refused O4 ShortData hdu 2\n"),
]

# Words, files, the status and what is reported.
WORDS = [
    (["diff", "a.fits"], {"a.fits": ONE}, 2, None),
    (["diff", "a.fits", "b.fits", "c.fits"], {"a.fits": ONE, "b.fits": ONE, "c.fits": ONE}, 2, None),
    (["diff", "a.fits", "none.fits"], {"a.fits": ONE}, 3, "fitsed: none.fits: read failed\n"),
    (["diff", "none.fits", "a.fits"], {"a.fits": ONE}, 3, "fitsed: none.fits: read failed\n"),
    (["diff", "-v", "a.fits", "none.fits"], {"a.fits": ONE}, 3, "fitsed: none.fits: read failed\nfitsed: none.fits: No such file or directory\n"),
    (["diff", "-v", "a.fits", "b.fits"], {"a.fits": ONE, "b.fits": b""}, 2, "fitsed: b.fits: open refused O1 NotFits\nfitsed: b.fits: the file is empty\n"),
    (["diff", "a.fits", "a.fits"], {"a.fits": IMAGES}, 0, ""),
    (["diff", "--script", "a.fits", "a.fits"], {"a.fits": IMAGES}, 0, ""),
    (["diff", "-s", "a.fits"], {"a.fits": ONE}, 2, None),
    (["diff", "-s", "a.fits", "none.fits"], {"a.fits": ONE}, 3, "fitsed: none.fits: read failed\n"),
    (["diff", "-s", "none.fits", "a.fits"], {"a.fits": ONE}, 3, "fitsed: none.fits: read failed\n"),
    (["diff", "-sv", "a.fits", "b.fits"], {"a.fits": b"", "b.fits": ONE}, 2, "fitsed: a.fits: open refused O1 NotFits\nfitsed: a.fits: the file is empty\n"),
]


def cases():
    for number, (first, second, status, printed, reported) in enumerate(ROWS, 1):
        files = {"a.fits": first, "b.fits": second}
        yield f"diff {number}", run, ["diff", "a.fits", "b.fits"], files, "", status, printed, reported
    for number, (first, second, status, printed, reported) in enumerate(SCRIPTS, 1):
        files = {"a.fits": first, "b.fits": second}
        yield f"diff -s {number}", run, ["diff", "-s", "a.fits", "b.fits"], files, "", status, printed, reported
        if status != 2:
            yield f"diff -s {number}, run", patches, files
    for words, files, status, reported in WORDS:
        yield " ".join(words), run, words, files, "", status, "", reported


def patches(program, files):
    """Where the script that makes the headers of a file those of another isn't done whole, or leaves other cards; and back again, if
    there is one."""
    for old, new in [("a.fits", "b.fits"), ("b.fits", "a.fits")]:
        script, _ = program.over(["diff", "-s", old, new], files, b"")
        if script.status == 2:
            continue
        edited, after = program.over(["edit", "-a", old, "out.fits"], files, script.printed)
        yield from differences(edited, status=0, printed=b"", reported=b"")
        left, _ = program.over(["diff", "-s", "out.fits", new], {**files, "out.fits": after.get("out.fits", b"")}, b"")
        yield from differences(left, status=0, printed=b"", reported=b"")
