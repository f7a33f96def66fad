#!/bin/sh
# Puts what C's callers need under a folder: library.sh FOLDER [PREFIX [LIBRARIES]]. PREFIX is /usr/local if it isn't given, and
# LIBRARIES, where the libraries stand below it, is lib.
set -eu
cd "$(dirname "$0")/.."
to=$1 prefix=${2-/usr/local} libraries=${3-lib}
install -d "$to$prefix/include" "$to$prefix/$libraries/pkgconfig"
install -m 644 binding/fitsed.h "$to$prefix/include/fitsed.h"
install -m 644 crates/fits_c/out/libfitsed.a "$to$prefix/$libraries/libfitsed.a"
install -m 755 crates/fits_c/out/libfitsed.so.0 "$to$prefix/$libraries/libfitsed.so.0"
ln -sf libfitsed.so.0 "$to$prefix/$libraries/libfitsed.so"
cat >"$to$prefix/$libraries/pkgconfig/fitsed.pc" <<END
prefix=$prefix
libdir=\${prefix}/$libraries
includedir=\${prefix}/include

Name: fitsed
Description: FITS files in memory, verified and corrected by checked commands
Version: $(sh packaging/version.sh)
Libs: -L\${libdir} -lfitsed
Cflags: -I\${includedir}
END
