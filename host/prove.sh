#!/bin/sh
# Proves every crate for make, those first on which others rest. Shown are a line for each crate that is
# done, with its place in the count, and what rt says of those that it refuses; all that rt says is in the
# log. The exit status is rt's.
#
# usage: host/prove.sh    the log is host/build/rt-check.log
set -u
log=host/build/rt-check.log
mkdir -p host/build || exit 2
crates=$(grep -c '^[a-z_]*\( staticlib\)\{0,1\}:' crates.txt)

# One line a crate: '== scalar' is shown as '[ 4/35] scalar'.
show() {
    place=0
    while IFS= read -r line; do
        case $line in
        '== summary') ;;
        '== '*)
            place=$((place + 1))
            printf '[%2d/%d] %s\n' "$place" "$crates" "${line#== }"
            ;;
        esac
    done
}

# Of the log: what stands before the first crate where rt got to none, what it says of each crate that it
# refuses, but for what it counts there, and the summary.
failure() {
    awk '
        function done() {
            if (refused || name == "summary" || name == "") printf "%s", said
            said = ""
            refused = 0
        }
        /^== / { done(); name = $2 }
        /^(library|statements|logic|checked) / { next }
        /^logic=not-proved|: error/ { refused = 1 }
        { said = said $0 "\n" }
        END { done() }' "$log"
}

{ rt all check 2>&1; echo $? >"$log.status"; } | tee "$log" | show
status=$(cat "$log.status")
rm -f "$log.status"
[ "$status" -eq 0 ] && exit 0
failure
echo "rt all check failed with status $status; all that it said is in $log"
exit "$status"
