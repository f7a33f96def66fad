#!/bin/sh
# Makes libfitsed.a and libfitsed.so.0 in crates/fits_c/out, of what `rt lib` left there and of the kit's calls of malloc, realloc
# and free. Their only names for others are those of fitsed.h.
set -eu
cd "$(dirname "$0")/../crates/fits_c/out"
ld -r -o fitsed.o --whole-archive libfits_c.a "$(dirname "$(rt doc)")/c/liblibc_c.a"
objcopy --wildcard --keep-global-symbol='fitsed_*' --strip-debug fitsed.o
cc -shared -o libfitsed.so.0 -Wl,-soname,libfitsed.so.0 -Wl,-z,defs -Wl,-z,relro,-z,now fitsed.o
rm -f libfitsed.a
ar rcsD libfitsed.a fitsed.o
