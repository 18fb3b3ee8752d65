#!/bin/sh
# Makes target/staticlib/libNAME.a of a crate, which rt proves first where something has changed. What rt
# says is shown only if that fails.
#
# usage: host/archive.sh NAME
set -eu
cd "$(dirname "$0")/.."
log=host/build/archive-$1.log
made=target/staticlib/lib$1.a
mkdir -p host/build target/staticlib
if ! (cd "crates/$1" && rt lib) >"$log" 2>&1; then
    cat "$log"
    echo "no archive of $1"
    exit 1
fi
cp "crates/$1/out/lib$1.a" "$made"
echo "made $made"
