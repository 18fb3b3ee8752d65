#!/bin/sh
# Damages a copy of the sample image, looks at it, mends it and compares: called by 'make demo' with the
# command, and the image. Exit status 0 only if the mended bytes are the image's. The files stay.
set -eu
exec 2>&1 # kw says its line on standard error
kw=$1 sample=$2
damaged=${sample%/*}/damaged.kw
mended=${sample%/*}/mended.kw

# Shows a command and runs it; a report on a damaged image ends with status 1.
show() {
    echo "\$ $*"
    "$@" || [ $? -eq 1 ]
}

put() { # OCTAL PLACE
    printf "\\$1" | dd of="$damaged" bs=1 seek="$2" conv=notrunc status=none
}

cp "$sample" "$damaged"
put 003 288 # the timetable's first byte, which is 1: one bit flipped
put 000 20  # a byte of the second header copy, which is 255

show "$kw" report "$sample"
show "$kw" report "$damaged"
show "$kw" mend "$damaged" -o "$mended"
show "$kw" report "$mended"
echo "\$ cmp $mended $sample && echo the same bytes"
cmp "$mended" "$sample" && echo the same bytes
