#!/bin/sh
# Makes the input files of some examples again, as FOLDER/NAME.fits: sh examples/make.sh FOLDER
# FITSED is the program that stamps them, bin/fitsed if it isn't set.
set -eu
folder=$1
fitsed=${FITSED:-bin/fitsed}

# cards CARD..: a header of these cards, with END, spaces to the end of its block
cards() {
    printf '%-80s' "$@" END
    printf "%$((2880 - 80 * ($# + 1)))s" ''
}
# number NAME VALUE: a card of an integer in fixed format
number() { printf '%-8s= %20s' "$1" "$2"; }
# pixels LENGTH TEXT: these bytes, as printf reads them, and zeros to the end of their block
pixels() {
    printf "$2"
    head -c $((2880 - $1)) /dev/zero
}
# primary CARD..: a primary header without data, with these further cards
primary() { cards 'SIMPLE  =                    T' "$(number BITPIX 8)" "$(number NAXIS 0)" "$@"; }
# image BITPIX NAXIS1 NAXIS2 CARD..: the header of an image extension, with these further cards
image() {
    bits=$1 columns=$2 rows=$3
    shift 3
    cards "XTENSION= 'IMAGE   '" "$(number BITPIX "$bits")" "$(number NAXIS 2)" "$(number NAXIS1 "$columns")" \
        "$(number NAXIS2 "$rows")" "$(number PCOUNT 0)" "$(number GCOUNT 1)" "$@"
}
# table NAXIS1 NAXIS2 TFIELDS CARD..: the header of a binary table, with these further cards
table() {
    width=$1 rows=$2 columns=$3
    shift 3
    cards "XTENSION= 'BINTABLE'" "$(number BITPIX 8)" "$(number NAXIS 2)" "$(number NAXIS1 "$width")" \
        "$(number NAXIS2 "$rows")" "$(number PCOUNT 0)" "$(number GCOUNT 1)" "$(number TFIELDS "$columns")" "$@"
}
# made NAME SCRIPT: the file of standard input after a script
made() {
    cat >"$folder/$1.new"
    printf "$2" | "$fitsed" edit "$folder/$1.new" "$folder/$1.fits"
    rm "$folder/$1.new"
}

science="EXTNAME = 'SCI     '"
six='\000\012\000\024\000\036\000\050\000\062\000\074'

primary "OBJECT  = 'M31     '" "TELESCOP= 'W.H.T.  '           / where" "DATE-OBS= '2024-02-29'" |
    made one_keyword_in_many_files ''
{
    primary "OBJECT  = 'M31     '" "DATE-OBS= '2024-02-29'"
    image 16 3 2 "$science"
    pixels 12 "$six"
} | made a_line_of_history ''
# stamped, and then a card of HDU 2 and a pixel of HDU 3 are changed
{
    primary "OBJECT  = 'M31     '"
    image 16 3 2 "$science" "FILTER  = 'R       '"
    pixels 12 "$six"
    image 8 3 2 "EXTNAME = 'MASK    '"
    pixels 6 '\000\000\001\000\000\001'
} | made wrong_sums "stamp 1\nstamp 2\nstamp 3\nset 2 FILTER 'V'\nfill 3 1:1,1:1 1\n"
# two pixels are saturated: they say 65535, and their stored number is 32767
{
    primary "OBJECT  = 'M31     '"
    image 16 3 2 "$(number BSCALE 1)" "$(number BZERO 32768)" "$(number BLANK 65535) / no value"
    pixels 12 '\200\012\177\377\200\036\200\050\200\062\177\377'
} | made a_bad_blank ''
# column 3 is dead
{
    primary "OBJECT  = 'M31     '"
    image 16 4 3 "$science"
    pixels 24 '\000\012\000\013\003\347\000\014\000\024\000\025\003\347\000\026\000\036\000\037\003\347\000\040'
} | made a_masked_column 'stamp 2\n'
{
    primary "OBJECT  = 'M31     '"
    image 16 3 2 "$science"
    pixels 12 "$six"
    image 8 3 2 "EXTNAME = 'SCRATCH '"
    pixels 6 '\001\002\003\004\005\006'
    image 8 3 2 "EXTNAME = 'MASK    '"
    pixels 6 '\000\000\001\000\000\001'
} | made a_removed_extension 'stamp 2\nstamp 4\n'
{
    primary "OBJECT  = 'M31     '"
    image 16 3 2 "$science"
    pixels 12 "$six"
} | made an_added_image ''
cp "$folder/an_added_image.fits" "$folder/a_reshaped_image.fits"
cp "$folder/an_added_image.fits" "$folder/sums_kept_right.fits"
{
    primary "OBJECT  = 'M31     '"
    cards "XTENSION= 'IMAGE   '" "$(number BITPIX 16)" "$(number NAXIS 2)" "$(number NAXIS1 3)" "$(number NAXIS2 2)" \
        "$science" "$(number GCOUNT 1)" "$(number PCOUNT 0)"
    pixels 12 "$six"
} | made a_misplaced_pcount ''
# four bytes of text were made five, and both columns have one name
{
    primary "OBJECT  = 'M31     '"
    table 8 2 2 "TTYPE1  = 'ID      '" "TFORM1  = 'J       '" "TTYPE2  = 'Id      '" "TFORM2  = '5A      '"
    pixels 16 '\000\000\000\001VEGA\000\000\000\002M31 '
} | made a_broken_table ''
