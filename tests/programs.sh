#!/bin/sh
# The programs as their users meet them, called by 'make programs' with the folder that holds report and
# scrub. Every input of tests/answers/programs is given to both, and what they write is compared to the
# byte; so are inputs at the limit, in small pieces and that can't be read, and outputs that are full,
# closed or gone. The last line is 'programs N passed, M failed'; exit status 0 only if M is 0.
set -u
bin=$1
cases=tests/answers/programs
work=$(mktemp -d) || exit 2
trap 'rm -rf "$work"' EXIT
passed=0
failed=0

# Runs a program; leaves its output, its messages and its status in $work.
run() { # PROGRAM ARGUMENT... <INPUT
    program=$1
    shift
    "$bin/$program" "$@" >"$work/out" 2>"$work/err"
    echo $? >"$work/status"
}

# What was written is, to the byte, what two files have, and the program ended well.
wrote() { # NAME OUTPUT MESSAGES
    if cmp "$work/out" "$2" && cmp "$work/err" "$3" && [ "$(cat "$work/status")" -eq 0 ]; then
        passed=$((passed + 1))
    else
        echo "programs: $1 FAILED, status $(cat "$work/status"); it said:"
        cat "$work/err"
        failed=$((failed + 1))
    fi
}

# Both programs on one input, by whatever command brings it.
both() { # NAME OUTPUT-OF-REPORT IMAGE LINE COMMAND...
    name=$1 report=$2 image=$3 line=$4
    shift 4
    "$@" | run report
    wrote "report, $name" "$report" "$work/nothing"
    "$@" | run scrub
    wrote "scrub, $name" "$image" "$line"
}

# A file in three pieces, with a pause after each, so that each read brings a part.
pieces() { # FILE
    {
        dd bs=1 count=3 2>"$work/dd"
        sleep 0.1
        dd bs=1 count=61 2>"$work/dd"
        sleep 0.1
        cat
    } <"$1"
}

padded() { # FILE LENGTH
    { cat "$1"; head -c "$2" /dev/zero; } | head -c "$2"
}

says() { printf '%s\n' "$1" >"$work/said"; }

: >"$work/nothing"

for input in "$cases"/*.kw; do
    case=${input%.kw}
    both "${case##*/}" "$case.report" "$case.scrub" "$case.line" cat "$input"
done
one=$cases/one-row damaged=$cases/damaged
both "from a pipe in pieces" "$damaged.report" "$damaged.scrub" "$damaged.line" pieces "$damaged.kw"

# 65,536 bytes are read; what lies behind the regions is kept. One byte more is too long.
padded "$one.kw" 65536 >"$work/longest"
both "65,536 bytes" "$one.report" "$work/longest" "$one.line" cat "$work/longest"
says too-long
padded "$one.kw" 65537 >"$work/longer"
both "65,537 bytes" "$work/said" "$work/nothing" "$work/said" cat "$work/longer"
both "a megabyte" "$work/said" "$work/nothing" "$work/said" padded "$one.kw" 1048576

for program in report scrub; do
    if [ -w /dev/full ]; then
        "$bin/$program" <"$one.kw" >/dev/full 2>"$work/err"
        echo $? >"$work/status"
        : >"$work/out"
        says "$program: standard output: No space left on device"
        wrote "$program, a full device" "$work/nothing" "$work/said"
    fi
    "$bin/$program" <"$one.kw" >&- 2>"$work/err"
    echo $? >"$work/status"
    says "$program: standard output: Bad file descriptor"
    wrote "$program, output closed" "$work/nothing" "$work/said"
    run "$program" </
    says "$program: standard input: Is a directory"
    wrote "$program, a directory as input" "$work/nothing" "$work/said"
    run "$program" <&-
    says "$program: standard input: Bad file descriptor"
    wrote "$program, input closed" "$work/nothing" "$work/said"
    run "$program" image.kw </dev/null
    case $program in
    report) says "usage: report <IMAGE" ;;
    scrub) says "usage: scrub <IMAGE >MENDED" ;;
    esac
    wrote "$program, an argument" "$work/nothing" "$work/said"
done

# A reader that is gone ends the program with the status that a shell shows of SIGPIPE, and nothing is said.
{ { sleep 0.3; cat "$one.kw"; } | "$bin/scrub" 2>"$work/err"; echo $? >"$work/status"; } | :
says 141
if cmp "$work/status" "$work/said" && cmp "$work/err" "$work/nothing"; then
    passed=$((passed + 1))
else
    echo "programs: scrub, a reader that is gone FAILED"
    failed=$((failed + 1))
fi

echo "programs $passed passed, $failed failed"
[ "$failed" -eq 0 ]
