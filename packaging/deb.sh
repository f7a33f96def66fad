#!/bin/sh
# Makes the Debian package of a program: deb.sh PROGRAM FILE.
set -eu
cd "$(dirname "$0")/.."
. packaging/debian.sh
program=$1 file=$2
room=$(mktemp -d)
trap 'rm -rf "$room"' EXIT
chmod 755 "$room"
sh packaging/files.sh "$program" "$room" /usr
gzip -9n "$room/usr/share/man/man1/fitsed.1"
rm "$room/usr/share/doc/fitsed/LICENSE-MIT" "$room/usr/share/doc/fitsed/LICENSE-APACHE"
documents "$room" fitsed
strip --strip-unneeded "$room/usr/bin/fitsed"
built "$room" "$file" fitsed amd64 science "libc6 (>= $(library_of "$room/usr/bin/fitsed"))" <<END
Description: editor and verifier for FITS files
 fitsed edits FITS files (FITS Standard 4.0) by a script: header cards, integer
 pixels, the shape of images, extensions, and checksums. It prints headers,
 values, statistics and sums, and what is wrong with a file. What its functions
 do with bytes is proved.
 .
 The program is compiled for x86-64-v2: processors since about 2009.
END
