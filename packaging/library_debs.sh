#!/bin/sh
# Makes the Debian packages of the library, of what its callers in C need, and of the Python package: library_debs.sh FOLDER.
set -eu
cd "$(dirname "$0")/.."
. packaging/debian.sh
to=$1
room=$(mktemp -d)
trap 'rm -rf "$room"' EXIT
libraries=lib/x86_64-linux-gnu
sh packaging/library.sh "$room/all" /usr "$libraries"
chmod 755 "$room/all"

# move NAME PATH..: these go to the package of this name.
move() {
    for path in "$@"; do
        [ "$path" = "$1" ] || { install -d "$room/$1/$(dirname "$path")" && mv "$room/all/$path" "$room/$1/$path"; }
    done
    chmod 755 "$room/$1"
    documents "$room/$1" "$1"
}

move libfitsed0 "usr/$libraries/libfitsed.so.0"
strip --strip-unneeded "$room/libfitsed0/usr/$libraries/libfitsed.so.0"
chmod 644 "$room/libfitsed0/usr/$libraries/libfitsed.so.0"
printf 'activate-noawait ldconfig\n' >"$room/triggers"
install -D -m 644 "$room/triggers" "$room/libfitsed0/DEBIAN/triggers"
built "$room/libfitsed0" "$to/libfitsed0_${version}_amd64.deb" libfitsed0 amd64 libs "libc6 (>= $(library_of "$room/libfitsed0/usr/$libraries/libfitsed.so.0"))" <<END
Description: FITS files in memory, verified and corrected - library
 The runs of the program fitsed over bytes in memory, and sessions that live
 across calls. What its functions do with bytes is proved.
END

move libfitsed-dev usr/include/fitsed.h "usr/$libraries/libfitsed.a" "usr/$libraries/libfitsed.so" "usr/$libraries/pkgconfig/fitsed.pc"
built "$room/libfitsed-dev" "$to/libfitsed-dev_${version}_amd64.deb" libfitsed-dev amd64 libdevel "libfitsed0 (= $version)" <<END
Description: FITS files in memory, verified and corrected - header
 The header, the static library and the file for pkg-config of libfitsed.
END

python=$room/python3-fitsed/usr/lib/python3/dist-packages
install -d "$python/fitsed"
install -m 644 binding/python/fitsed/*.py binding/python/fitsed/py.typed "$python/fitsed/"
move python3-fitsed
built "$room/python3-fitsed" "$to/python3-fitsed_${version}_all.deb" python3-fitsed all python "python3 (>= 3.9), libfitsed0 (= $version)" <<END
Description: FITS files in memory, verified and corrected - Python
 The package fitsed over libfitsed: files as objects, values as Python's own,
 pixels as arrays of numpy where that is there.
END
