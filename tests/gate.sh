#!/bin/sh
# The gate, called by 'make test'. Every part runs, whatever became of the one before it. The last
# line, 'N passed, M failed', counts what rt proved and refused, the wrong programs that were refused
# where they are wrong, the cases compared, the lines replayed, and the cases of the programs, the
# command and the C API. A part that fails, leaves no count or counts nothing is a failure; the exit
# status is 0 only if M is 0.
set -u
cd "$(dirname "$0")/.." || exit 2
: "${KW_ORACLE:?call this by make test}"
# The makes below must not take over what the calling make was told, such as another archive.
unset MAKEFLAGS MFLAGS MAKEOVERRIDES MAKELEVEL

logs=host/build/gate
passed=0
failed=0

# Runs a command, shows and logs what it prints, says how long it took, leaves its status in $status.
part() { # NAME COMMAND...
    name=$1
    log=$logs/$name
    shift
    echo "== $name: $*"
    began=$(date +%s)
    { "$@" 2>&1; echo $? >"$log.status"; } | tee "$log.log"
    status=$(cat "$log.status")
    echo "== $name took $(($(date +%s) - began)) s"
}

fail() { # REASON
    echo "== FAILED: $1"
    failed=$((failed + 1))
}

must_end_well() {
    [ "$status" -eq 0 ] || fail "$name ended with status $status"
}

# Adds what the part counted: the two numbers of the last line that it printed in the given form.
count() { # FORM
    numbers=$(sed -n -E "s/^$1\$/\1 \2/p" "$log.log" | tail -n 1)
    if [ -z "$numbers" ]; then
        fail "$name left no count"
        return
    fi
    good=${numbers% *} bad=${numbers#* }
    case $1 in *different) good=$((good - bad)) ;; esac # 'different' are counted among the cases
    passed=$((passed + good))
    failed=$((failed + bad))
    [ "$good" -gt 0 ] || fail "$name has nothing that passed"
    [ "$bad" -gt 0 ] || must_end_well
}

gate_began=$(date +%s)
mkdir -p "$logs"

part prove rt ci
count '([0-9]+) passed, ([0-9]+) failed( \(.*\))?'
# An edit whose text no longer stands fails nothing in rt ci, and shows nothing.
! grep -E '^rt: ok.*, [0-9]+ bad' "$log.log" || fail "a must-fail edit is bad"

# Programs, archives and what else make built before are not trusted; rt keeps its own by what it read.
find host/build -mindepth 1 -maxdepth 1 ! -name gate -exec rm -rf {} +
rm -rf target bin

# Two at a time: each proves its crate and those below it once more.
part archives sh -c 'echo kw_test kw | xargs -n 1 -P 2 sh host/archive.sh'
must_end_well

if [ -d "$KW_ORACLE" ]; then
    part compare make compare
    count 'compared ([0-9]+) cases, ([0-9]+) different'
    part recorded make recorded
    must_end_well
else
    echo "comparison left out: no oracle at $KW_ORACLE"
fi

part replay make replay
count 'replayed ([0-9]+) lines, ([0-9]+) different'

part programs make programs
count 'programs ([0-9]+) passed, ([0-9]+) failed'

part command make command
count 'command ([0-9]+) passed, ([0-9]+) failed'

part demo make demo
must_end_well

part api make api
count 'api ([0-9]+) passed, ([0-9]+) failed'

# Last, since its copies of the crates begin with what was built for the parts before.
part refused make refused
count 'wrong programs ([0-9]+) passed, ([0-9]+) failed'

echo "== the gate took $(($(date +%s) - gate_began)) s"
echo "$passed passed, $failed failed"
[ "$failed" -eq 0 ]
