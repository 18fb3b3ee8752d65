#!/bin/sh
# Makes a program of a crate, which rt proves first where something has changed. rt also runs it, on no
# input and with the given arguments; that must end well. What rt says is shown only if one of this fails.
#
# usage: host/program.sh NAME FILE [ARGUMENT...]    FILE is where the program goes
set -eu
cd "$(dirname "$0")/.."
name=$1 made=$2
shift 2
log=host/build/program-$name.log
mkdir -p host/build "$(dirname "$made")"
if ! (cd "crates/$name" && rt run -- "$@" </dev/null) >"$log" 2>&1; then
    cat "$log"
    echo "no program of $name"
    exit 1
fi
cp "crates/$name/out/$name" "$made"
echo "made $made"
