#!/bin/sh
# Runs the built program over real files and devices, and compares what it writes.
# The last line is 'N passed, M failed'.
set -u
room=$(mktemp -d)
trap 'rm -rf "$room"' EXIT
program=crates/fitsed/out/fitsed
passed=0
failed=0
# expect NAME CONDITION..: the condition is a command
expect() {
    expected=$1
    shift
    if "$@"; then
        passed=$((passed + 1))
    else
        echo "FAILED: $expected"
        failed=$((failed + 1))
    fi
}
status() {
    want=$1
    shift
    "$@" >"$room/printed" 2>"$room/reported"
    [ $? = "$want" ]
}
edit() { "$program" edit "$@" <"$example/script"; }
onto_a_full_device() { "$program" edit "$1" "$2" <"$example/script" >/dev/full; }

# each example: its script over in.fits comes to its answers, its out.fits and its status
for script in examples/*/script; do
    example=$(dirname "$script")
    name=$(basename "$example")
    want=0
    [ -e "$example/status" ] && want=$(cat "$example/status")
    rm -f "$room/out.fits"
    expect "the example $name ends with $want" status "$want" edit "$example/in.fits" "$room/out.fits"
    expect "the example $name prints its answers" cmp -s "$room/printed" "$example/answers"
    expect "the example $name saves its file" cmp -s "$room/out.fits" "$example/out.fits"
done

# each example with a listing: its in.fits is listed so
for listing in examples/*/listing; do
    example=$(dirname "$listing")
    expect "the example $(basename "$example") is listed" status 0 "$program" list "$example/in.fits"
    expect "the example $(basename "$example") has its listing" cmp -s "$room/printed" "$listing"
done

# each example with a report: its in.fits is verified so, with an error
for report in examples/*/report; do
    example=$(dirname "$report")
    name=$(basename "$example")
    expect "the example $name has errors" status 1 "$program" verify "$example/in.fits"
    expect "the example $name has its report" cmp -s "$room/printed" "$report"
    expect 'without its warnings it ends so too' status 1 "$program" verify -e "$example/in.fits"
    grep -v '^W' "$report" >"$room/lines"
    expect 'and lists its errors' cmp -s "$room/printed" "$room/lines"
    expect 'by the long name too' status 1 "$program" verify --errors "$example/in.fits"
    expect 'and lists the same' cmp -s "$room/printed" "$room/lines"
    tail -n 1 "$report" >"$room/lines"
    for flags in -q -eq -qe --quiet; do
        expect "with $flags it ends so too" status 1 "$program" verify "$flags" "$example/in.fits"
        expect 'and is counted' cmp -s "$room/printed" "$room/lines"
    done
    expect 'flags may come last' status 1 "$program" verify "$example/in.fits" -e -q
    expect 'and count' cmp -s "$room/printed" "$room/lines"
    expect 'the example mended has no error' status 0 "$program" verify -q "$example/out.fits"
    expect 'and no warning' [ "$(cat "$room/printed")" = 'errors 0 warnings 0' ]
done

# each example with sums: its in.fits is summed so, and its out.fits is stamped
for sums in examples/*/sums; do
    example=$(dirname "$sums")
    expect "the example $(basename "$example") is summed" status 0 "$program" sum "$example/in.fits"
    expect "the example $(basename "$example") has its sums" cmp -s "$room/printed" "$sums"
    expect 'the example stamped is summed' status 0 "$program" sum "$example/out.fits"
    expect 'and each verdict is 1' [ "$(grep -vc ' 1 1$' "$room/printed")" = 0 ]
done

# the files that examples/make.sh makes are those that stand there
mkdir "$room/made"
expect 'input files are made again' env FITSED="$program" sh examples/make.sh "$room/made"
for made in "$room"/made/*.fits; do
    name=$(basename "$made" .fits)
    expect "the input of $name is made as it stands" cmp -s "$made" "examples/$name/in.fits"
done

# the loops over folders of docs/GUIDE.md, over the inputs of the examples
fitsed() { "$program" "$@"; }
(
    for example in examples/*/in.fits; do
        f=$(basename "$(dirname "$example")").fits
        fitsed sum "$example" >"$room/sums" || echo "$f"
        grep -q -- ' -1' "$room/sums" && echo "$f"
    done
    true
) >"$room/wrong"
expect 'one example has wrong sums' [ "$(cat "$room/wrong")" = wrong_sums.fits ]
fitsed list examples/wrong_sums/in.fits | sed 's/^hdu \([0-9]*\) .*/stamp \1/' |
    fitsed edit examples/wrong_sums/in.fits "$room/stamped.fits"
expect 'all HDUs are stamped by a listing' cmp -s "$room/stamped.fits" examples/wrong_sums/out.fits
cards() { fitsed list "$1" | sed -n "s/^hdu $2 .* cards \([0-9]*\) .*/\1/p"; }
echo "ins 2 $(($(cards examples/a_line_of_history/in.fits 2) + 1)) HISTORY 2026-11-23 flat field corrected by the archive" |
    fitsed edit examples/a_line_of_history/in.fits "$room/history.fits"
expect 'a card comes after the last by a listing' cmp -s "$room/history.fits" examples/a_line_of_history/out.fits
fitsed sum examples/wrong_sums/in.fits | awk '$3 < 0 || $4 < 0 { print "stamp " $1 }' |
    fitsed edit examples/wrong_sums/in.fits "$room/stamped.fits"
expect 'HDUs with wrong sums are stamped by their sums' [ "$(fitsed sum "$room/stamped.fits" | grep -c ' 1 1$')" = 3 ]

# many files at once, as docs/GUIDE.md has it
example=examples/a_comment
mkdir "$room/many" "$room/many/new" "$room/many/answers"
for name in 1 2 3 'a b' "it's" 'R&D' 'a|b' 'a\b' '-e' 'two
lines'; do cp "$example/in.fits" "$room/many/$name.fits"; done
here=$(pwd)
(cd "$room/many" && printf '%s\0' ./*.fits | xargs -0 -P 4 -I{} sh -c \
    "\"\$0/$program\" edit \"\$1\" \"new/\$1\" < \"\$0/$example/script\" > \"answers/\$1\" 2>&1; echo \"\$? \$1\"" "$here" {} > done)
expect 'ten files at once end with 0, whatever their names are' [ "$(grep -c '^0 ' "$room/many/done")" = 10 ]
for made in "$room"/many/new/*.fits; do
    expect 'and each is saved' cmp -s "$made" "$example/out.fits"
done
expect 'all of them' [ "$(printf '%s\0' "$room"/many/new/*.fits | tr -dc '\0' | wc -c)" = 10 ]

# the stored run of the program is this example
example=examples/a_comment
expect 'the stored run has its file' cmp -s crates/fitsed/data/p0.fits "$example/in.fits"
expect 'the stored run has its script' cmp -s crates/fitsed/stdin "$example/script"
expect 'the stored run has its answers' cmp -s crates/fitsed/stdout "$example/answers"

# a file of the limit opens, and one byte more is too much; both are sparse
cp "$example/in.fits" "$room/limit.fits"
truncate -s 11520000000 "$room/limit.fits"
expect 'a file of the limit is listed' status 0 "$program" list "$room/limit.fits"
truncate -s 11520000001 "$room/limit.fits"
expect 'one byte more ends with 2' status 2 "$program" list "$room/limit.fits"
expect 'and is too large' grep -qx 'fitsed: open refused O5 TooLarge' "$room/reported"
rm "$room/limit.fits"
expect 'a device without an end ends with 2' status 2 "$program" list /dev/zero
expect 'and is too large' grep -qx 'fitsed: open refused O5 TooLarge' "$room/reported"

# a header that claims 2 GB over a file of one block asks for no memory
{
    printf '%-80s' 'SIMPLE  =                    T' 'BITPIX  =                    8' 'NAXIS   =                    1' 'NAXIS1  =           2000000000' END
    printf '%2480s' ''
} >"$room/claims.fits"
in_100_mb() { (ulimit -v 100000 && "$program" edit "$@" </dev/null); }
expect 'a header that claims 2 GB ends with 2' status 2 in_100_mb "$room/claims.fits" "$room/unsaved.fits"
expect 'and has too few data' grep -qx 'fitsed: open refused O4 ShortData hdu 1' "$room/reported"

expect 'a full device for answers ends with 3' status 3 onto_a_full_device "$example/in.fits" "$room/unsaved.fits"
expect 'and nothing is saved' [ ! -e "$room/unsaved.fits" ]
expect 'a full device for OUT ends with 3' status 3 edit "$example/in.fits" /dev/full
expect 'and says so' grep -qx 'fitsed: write failed' "$room/reported"
expect 'an IN that is not there ends with 3' status 3 edit "$room/nothing" "$room/unsaved.fits"
expect 'an IN that is a folder ends with 3' status 3 edit "$room" "$room/unsaved.fits"
expect 'an OUT that cannot be made ends with 3' status 3 edit "$example/in.fits" "$room/no/out.fits"
expect 'words that are missing end with 2' status 2 edit "$example/in.fits"
expect 'no words end with 2' status 2 "$program"
expect 'another command ends with 2' status 2 "$program" frob
told_to_a_full_device() { "$program" "$@" 2>/dev/full; }
expect 'and does so where that can not be said' status 2 told_to_a_full_device frob
expect 'an argument that is not UTF-8 ends with 2' status 2 edit "$(printf 'a\377')" "$room/unsaved.fits"
expect 'help ends with 0' status 0 "$program" --help
expect 'help of a command ends with 0' status 0 "$program" edit --help
expect 'and has the forms of the lines' grep -q 'ins H P CARD' "$room/printed"
for command in edit list sum verify; do
    expect "help of $command ends with 0" status 0 "$program" "$command" --help
    cp "$room/printed" "$room/help"
    expect 'so it does by its other form' status 0 "$program" help "$command"
    expect 'and prints the same' cmp -s "$room/printed" "$room/help"
    expect 'and says which statuses it has' grep -q 'Exit status:' "$room/printed"
done
expect 'the help of all ends with 0' status 0 "$program" help
expect 'the version ends with 0' status 0 "$program" --version
expect 'and is that of the manual page' [ "$(cat "$room/printed")" = "$(sed -n '1s/.*"\(fitsed [0-9.]*\)".*/\1/p' man/fitsed.1)" ]
# two HDUs: P0 and an image extension of one pixel of 16 bits, and a tail
{
    cat "$example/in.fits"
    printf '%-80s%-80s%-80s%-80s%-80s%-80s%-2400s' \
        "XTENSION= 'IMAGE   '" 'BITPIX  =                   16' 'NAXIS   =                    1' \
        'NAXIS1  =                    1' 'PCOUNT  =                    0' 'GCOUNT  =                    1' 'END'
    head -c 2880 /dev/zero
    printf 'trailer'
} >"$room/two.fits"
{
    echo 'hdu 1 PRIMARY bitpix 8 axes - cards 3 at 0 2880 2880'
    echo 'hdu 2 IMAGE bitpix 16 axes 1 cards 6 at 2880 5760 8640'
} >"$room/lines"
list() { "$program" list "$@"; }
list_to_a_full_device() { "$program" list "$1" >/dev/full; }
ask() { printf 'get 2 BITPIX\noff\n' | "$program" edit "$@"; }
expect 'a listing ends with 0' status 0 list "$room/two.fits"
expect 'and has a line for each HDU' cmp -s "$room/printed" "$room/lines"
expect 'a file of two HDUs is edited' status 0 ask "$room/two.fits" "$room/two.out"
expect 'and answers' [ "$(cat "$room/printed")" = "integer 16
1 0 2880 2880
2 2880 5760 8640" ]
expect 'and is saved as it was' cmp -s "$room/two.out" "$room/two.fits"
expect 'a full device for a listing ends with 3' status 3 list_to_a_full_device "$room/two.fits"
verify_to_a_full_device() { "$program" verify "$1" >/dev/full; }
expect 'a file with bytes after it has no error' status 0 "$program" verify "$room/two.fits"
expect 'but a warning' [ "$(cat "$room/printed")" = "W26 3 0 bytes after the last HDU
errors 0 warnings 1" ]
expect 'a full device for a report ends with 3' status 3 verify_to_a_full_device "$room/two.fits"
sum_to_a_full_device() { "$program" sum "$1" >/dev/full; }
expect 'sums end with 0' status 0 "$program" sum "$room/two.fits"
expect 'and have a line for each HDU' [ "$(cat "$room/printed")" = "1 0 0 0
2 0 0 0" ]
expect 'a full device for sums ends with 3' status 3 sum_to_a_full_device "$room/two.fits"
expect 'sums of nothing end with 3' status 3 "$program" sum "$room/nothing"
expect 'sums without a path end with 2' status 2 "$program" sum
expect 'sums take no flag' status 2 "$program" sum -q "$room/two.fits"
expect 'a report of nothing ends with 3' status 3 "$program" verify "$room/nothing"
expect 'a report without a path ends with 2' status 2 "$program" verify -q
expect 'another flag ends with 2' status 2 "$program" verify -x "$room/two.fits"
head -c 8639 "$room/two.fits" >"$room/short.fits"
expect 'a file without its last byte ends with 2' status 2 list "$room/short.fits"
expect 'and says why' grep -qx 'fitsed: open refused O4 ShortData hdu 2' "$room/reported"
expect 'verify ends so too' status 2 "$program" verify "$room/short.fits"
expect 'sum ends so too' status 2 "$program" sum "$room/short.fits"
expect 'and prints nothing' [ ! -s "$room/printed" ]
expect 'and says the same' grep -qx 'fitsed: open refused O4 ShortData hdu 2' "$room/reported"
# as many HDUs as a file may have, and one more
primary=$(printf '%-80s%-80s%-80s%-2640s' 'SIMPLE  =                    T' 'BITPIX  =                    8' \
    'NAXIS   =                    0' 'END')
extension=$(printf '%-80s%-80s%-80s%-80s%-80s%-2480s' "XTENSION= 'IMAGE   '" 'BITPIX  =                    8' \
    'NAXIS   =                    0' 'PCOUNT  =                    0' 'GCOUNT  =                    1' 'END')
many() { awk -v p="$primary" -v e="$extension" -v n="$1" 'BEGIN { printf "%s", p; for (k = 1; k < n; k++) printf "%s", e }'; }
many 10000 >"$room/most.fits"
expect 'a file of 10,000 HDUs is listed' status 0 list "$room/most.fits"
expect 'and has a line for each' [ "$(wc -l <"$room/printed")" = 10000 ]
expect 'its sums have one too' status 0 "$program" sum "$room/most.fits"
expect 'the last of the last HDU' [ "$(tail -n 1 "$room/printed")" = '10000 0 0 0' ]
one_more() { echo 'new 2 u8 -' | "$program" edit "$@"; }
expect 'one HDU more is refused' status 1 one_more "$room/most.fits" "$room/unsaved.fits"
expect 'as too large' [ "$(cat "$room/printed")" = 'line 1: refused 14 TooLarge' ]
rm "$room/unsaved.fits"
many 10001 >"$room/many.fits"
expect 'one of 10,001 HDUs ends with 2' status 2 list "$room/many.fits"
expect 'and is too large' grep -qx 'fitsed: open refused O5 TooLarge' "$room/reported"
expect 'a listing of nothing ends with 3' status 3 list "$room/nothing"
expect 'a listing without a path ends with 2' status 2 list
cp "$example/in.fits" "$room/same.fits"
expect 'OUT may be IN' status 0 edit "$room/same.fits" "$room/same.fits"
expect 'and holds the edits' cmp -s "$room/same.fits" "$example/out.fits"
# a file that stands at OUT is kept where saving fails; here at 8 KB, as on a full disk
cp "$example/in.fits" "$room/kept.fits"
in_8_kb() { (trap '' XFSZ && ulimit -f 16 && "$program" edit "$@" </dev/null); }
expect 'a save that fails ends with 3' status 3 in_8_kb "$room/most.fits" "$room/kept.fits"
expect 'and leaves the file at OUT' cmp -s "$room/kept.fits" "$example/in.fits"
expect 'and nothing beside it' [ -z "$(ls -A "$room" | grep fitsed-)" ]
expect 'OUT = IN too' status 3 in_8_kb -e "set 1 OBJECT 'M31'" "$room/most.fits" "$room/most.fits"
expect 'and leaves the file' [ "$(stat -c %s "$room/most.fits")" = 28800000 ]
chmod 640 "$room/kept.fits"
ln -s kept.fits "$room/link.fits"
expect 'OUT may be a link' status 0 edit "$example/in.fits" "$room/link.fits"
expect 'whose file holds the edits' cmp -s "$room/kept.fits" "$example/out.fits"
expect 'and has its permissions' [ "$(stat -c %a "$room/kept.fits")" = 640 ]
expect 'and the link stays' [ -L "$room/link.fits" ]
ln "$room/kept.fits" "$room/other.fits"
expect 'OUT may have two names' status 0 ask "$room/two.fits" "$room/kept.fits"
expect 'and both have the edits' cmp -s "$room/other.fits" "$room/two.fits"
chmod 600 "$room/two.fits"
(umask 022 && ask "$room/two.fits" "$room/like.fits" >"$room/printed")
expect 'a new OUT has the permissions of IN' [ "$(stat -c %a "$room/like.fits")" = 600 ]
chmod 666 "$room/two.fits"
rm "$room/like.fits"
(umask 027 && ask "$room/two.fits" "$room/like.fits" >"$room/printed")
expect 'less those that the umask takes' [ "$(stat -c %a "$room/like.fits")" = 640 ]
# streams that are closed when the program starts
without_a_script() { "$program" edit "$@" <&-; }
expect 'a closed standard input ends with 3' status 3 without_a_script "$room/two.fits" "$room/unsaved.fits"
expect 'as a failed read' grep -qx 'fitsed: read failed' "$room/reported"
expect 'and nothing is saved' [ ! -e "$room/unsaved.fits" ]
without_answers() { printf 'off\n' | "$program" edit "$1" "$2" >&-; }
expect 'a closed standard output ends with 3' status 3 without_answers "$room/two.fits" "$room/unsaved.fits"
expect 'as a failed write' grep -qx 'fitsed: write failed' "$room/reported"
expect 'and no answer is saved' [ ! -e "$room/unsaved.fits" ]
without_reports() { printf 'off\n' | "$program" edit "$1" "$2" 2>&-; }
expect 'a closed standard error changes nothing' status 0 without_reports "$room/two.fits" "$room/silent.fits"
expect 'and no report is saved' cmp -s "$room/silent.fits" "$room/two.fits"
# answers come before the script goes on
mkfifo "$room/asked" "$room/answered"
"$program" edit "$room/two.fits" "$room/two.out" <"$room/asked" >"$room/answered" &
exec 8>"$room/asked" 9<"$room/answered"
echo 'get 2 BITPIX' >&8
expect 'an answer comes before the script ends' [ "$(timeout 20 head -n 1 <&9)" = 'integer 16' ]
exec 8>&- 9<&-
wait
echo "$passed passed, $failed failed"
[ "$failed" = 0 ]
