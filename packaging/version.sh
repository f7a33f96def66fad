#!/bin/sh
# Prints the version, which stands in the program's help alone.
sed -n 's/.*VERSION: &str = "\(.*\)";/\1/p' "$(dirname "$0")/../crates/fitsed/src/help.rt"
