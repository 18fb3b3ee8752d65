#!/bin/sh
# The command as its users meet it, called by 'make command' with the file kw. Every input of
# tests/answers/programs is reported on and mended, in place and elsewhere; then come files that can't be read
# or written, links, several files, and images at the limit. Status, both outputs and the files left are
# compared to the byte. The last line is 'command N passed, M failed'; exit status 0 only if M is 0.
set -u
cases=tests/answers/programs
work=$(mktemp -d) || exit 2
trap 'rm -rf "$work"' EXIT
chmod 755 "$work"
cp "$1" "$work/kw" || exit 2
kw=$work/kw
passed=0
failed=0

run() { # ARGUMENT... <INPUT
    "$kw" "$@" >"$work/out" 2>"$work/err"
    echo $? >"$work/status"
}

# Another user, for what the superuser may do anyway.
if [ "$(id -u)" -eq 0 ]; then
    run_as_other() {
        setpriv --reuid=65534 --regid=65534 --clear-groups "$kw" "$@" >"$work/out" 2>"$work/err"
        echo $? >"$work/status"
    }
else
    run_as_other() { run "$@"; }
fi

lines() { # FILE LINE...
    file=$1
    shift
    for line; do printf '%s\n' "$line"; done >"$file"
}
out_is() { lines "$work/want-out" "$@"; }
err_is() { lines "$work/want-err" "$@"; }

good() { passed=$((passed + 1)); }
bad() {
    echo "command: $1 FAILED, status $(cat "$work/status"); it said:"
    cat "$work/err"
    failed=$((failed + 1))
}

# What was printed is what out_is and err_is said, and the status is the one given.
ended() { # NAME STATUS
    if cmp "$work/out" "$work/want-out" && cmp "$work/err" "$work/want-err" && [ "$(cat "$work/status")" -eq "$2" ]; then good; else bad "$1"; fi
}

same() { # NAME FILE FILE
    if cmp "$2" "$3"; then good; else bad "$1"; fi
}

# The folder holds these files and no other.
holds() { # NAME FOLDER FILE...
    name=$1 folder=$2
    shift 2
    lines "$work/want-files" "$@"
    ls -A "$folder" >"$work/files"
    same "$name, the files left" "$work/files" "$work/want-files"
}

sentence() { # NUMBER DETAIL
    case $1 in
    1) echo "the image ends inside its header (Truncated)" ;;
    2) echo "not a keleusma-wire image (BadMagic)" ;;
    3) echo "the byte order is not little-endian (ForeignEndian)" ;;
    4) echo "version $2 of the format is not supported (UnsupportedVersion)" ;;
    5) echo "the header's checksum is wrong (BadPrologueChecksum)" ;;
    6) echo "$2 regions are more than 1024 (TooManyRegions)" ;;
    7) echo "entry $2 ends past the image (RegionOutOfBounds)" ;;
    8) echo "kind $2 stands twice in the directory (DuplicateRegion)" ;;
    12) echo "entry $2 lies on the header or on an earlier region (OverlappingRegions)" ;;
    esac
}

# What the report and the mending of a recorded case say.
of_case() { # CASE NAME
    set -- "$1" "$2" $(cat "$1.report")
    case $3 in
    refused) status=2 said="kw: $2: $(sentence "$4" "$5")" lost=0 ;;
    *) # regions N scrub yes|no ecc none|W C U
        said='' lost=${10:-0} status=0
        [ "$6" = no ] && [ "${9:-0}" -eq 0 ] && [ "$lost" -eq 0 ] || status=1
        ;;
    esac
    set -- "$1" "$2" $(cat "$1.line")
    mended="$3 $4${5:+ $5}"
    case $3 in
    refused) mend_status=2 mend_said="kw: $2: $(sentence "$4" "$5")" ;;
    *) mend_said='' mend_status=0
        [ "$lost" -eq 0 ] || mend_status=1 mend_said="uncorrectable $lost" ;;
    esac
}

nothing() { : >"$work/want-out"; : >"$work/want-err"; }

for input in "$cases"/*.kw; do
    case=${input%.kw} name=${input##*/}
    of_case "$case" "$input"
    run report "$input"
    cp "$case.report" "$work/want-out"
    err_is ${said:+"$said"}
    ended "report $name" $status
    of_case "$case" -
    run report - <"$input"
    err_is ${said:+"$said"}
    ended "report $name on standard input" $status
    run mend - <"$input"
    cp "$case.scrub" "$work/want-out"
    err_is "$mended" ${mend_said:+"$mend_said"}
    ended "mend $name on standard input" $mend_status

    rm -rf "$work/place"
    mkdir "$work/place"
    cp "$input" "$work/place/image.kw"
    chmod 640 "$work/place/image.kw"
    before=$(stat -c %i "$work/place/image.kw")
    of_case "$case" "$work/place/image.kw"
    run mend "$work/place/image.kw"
    nothing
    err_is "$mended" ${mend_said:+"$mend_said"}
    ended "mend $name in place" $mend_status
    case $mended in
    "stored "*) same "mend $name in place, the file" "$work/place/image.kw" "$case.scrub" ;;
    *) same "mend $name in place, the file" "$work/place/image.kw" "$input" ;;
    esac
    holds "mend $name in place" "$work/place" image.kw
    # An image that is refused, or in order, is not touched; the mode stays.
    kept=same
    case $mended in "stored 0" | refused*) ;; "stored "*) kept=other ;; esac
    [ "$before" = "$(stat -c %i "$work/place/image.kw")" ] || kept=$([ $kept = other ] && echo right || echo touched)
    if [ $kept != touched ] && [ "$(stat -c %a "$work/place/image.kw")" = 640 ]; then good; else bad "mend $name in place, the mode"; fi

    of_case "$case" "$input"
    run mend "$input" -o "$work/place/other.kw"
    err_is "$mended" ${mend_said:+"$mend_said"}
    ended "mend $name into another file" $mend_status
    case $mended in
    "stored "*) same "mend $name into another file, the file" "$work/place/other.kw" "$case.scrub" ;;
    *) holds "mend $name into another file" "$work/place" image.kw ;;
    esac
done

one=$cases/one-row damaged=$cases/damaged
fresh() { # a damaged image, alone in a folder
    rm -rf "$work/place"
    mkdir "$work/place"
    cp "$damaged.kw" "$work/place/image.kw"
}

# Several files: a name before each line, and the highest status.
run report "$one.kw" "$cases/2-magic.kw" "$damaged.kw"
{ sed "s|^|$one.kw: |" "$one.report"; sed "s|^|$cases/2-magic.kw: |" "$cases/2-magic.report"; sed "s|^|$damaged.kw: |" "$damaged.report"; } >"$work/want-out"
err_is "kw: $cases/2-magic.kw: $(sentence 2 0)"
ended "three files of which one is refused" 2
run report "$one.kw" "$work/missing"
sed "s|^|$one.kw: |" "$one.report" >"$work/want-out"
err_is "kw: $work/missing: No such file or directory"
ended "two files of which one is missing" 3
run report -- "$one.kw"
cp "$one.report" "$work/want-out"
err_is
ended "a name behind --" 0

# Files that can't be read.
nothing
for command in report mend; do
    run $command "$work/missing"
    err_is "kw: $work/missing: No such file or directory"
    ended "$command, a missing file" 3
    run $command "$work"
    err_is "kw: $work: Is a directory"
    ended "$command, a directory" 3
    run $command - <&-
    err_is "kw: -: Bad file descriptor"
    ended "$command, input closed" 3
done

# Outputs that take nothing.
for arguments in "report $one.kw" "mend $damaged.kw -o -" "help" "version"; do
    "$kw" $arguments >/dev/full 2>"$work/err"
    echo $? >"$work/status"
    : >"$work/out"
    err_is "kw: standard output: No space left on device"
    ended "$arguments, a full device" 3
    "$kw" $arguments >&- 2>"$work/err"
    echo $? >"$work/status"
    err_is "kw: standard output: Bad file descriptor"
    ended "$arguments, output closed" 3
done
run mend "$damaged.kw" -o /dev/full
err_is "kw: /dev/full: No space left on device"
ended "mend into a full device" 3
run mend "$damaged.kw" -o "$work/no/such"
err_is "kw: $work/no/such: No such file or directory"
ended "mend into a folder that is missing" 3

# A file, and a folder, that another user may not write.
fresh
chmod 600 "$work/place/image.kw"
chmod 777 "$work/place"
if [ "$(id -u)" -eq 0 ] && command -v setpriv >/dev/null; then
    run_as_other report "$work/place/image.kw"
    err_is "kw: $work/place/image.kw: Permission denied"
    ended "a file without permission" 3
    chmod 644 "$work/place/image.kw"
    run_as_other mend "$work/place/image.kw"
    ended "mend, a file that may not be written" 3
    chmod 666 "$work/place/image.kw"
    chmod 755 "$work/place"
    run_as_other mend "$work/place/image.kw"
    ended "mend in a read-only folder" 3
    same "mend in a read-only folder, the file" "$work/place/image.kw" "$damaged.kw"
    holds "mend in a read-only folder" "$work/place" image.kw
    run_as_other mend "$work/place/image.kw" -o "$work/place/other.kw"
    err_is "kw: $work/place/other.kw: Permission denied"
    ended "mend into a read-only folder" 3
    holds "mend into a read-only folder" "$work/place" image.kw
else
    echo "left out: files and folders without permission, which want the superuser and setpriv"
fi

# A link keeps leading to the file that is mended: relative, absolute, through another, and as OUT.
for link in image.kw "$work/place/image.kw" sub/../image.kw; do
    fresh
    mkdir "$work/place/sub"
    ln -s "$link" "$work/place/link"
    ln -s link "$work/place/chain"
    run mend "$work/place/chain"
    err_is "stored 2"
    ended "mend through a link to $link" 0
    same "mend through a link to $link, the file" "$work/place/image.kw" "$damaged.scrub"
    lines "$work/links" "$(readlink "$work/place/chain")" "$(readlink "$work/place/link")"
    lines "$work/want-links" link "$link"
    same "mend through a link to $link, the link" "$work/links" "$work/want-links"
    holds "mend through a link to $link" "$work/place" chain image.kw link sub
done
fresh
ln -s new.kw "$work/place/link"
run mend "$damaged.kw" -o "$work/place/link"
ended "mend into a link that leads nowhere" 0
same "mend into a link that leads nowhere, the file" "$work/place/new.kw" "$damaged.scrub"
holds "mend into a link that leads nowhere" "$work/place" image.kw link new.kw
ln -s loop "$work/place/loop"
run mend "$damaged.kw" -o "$work/place/loop"
err_is "kw: $work/place/loop: Too many levels of symbolic links"
ended "mend into a link to itself" 3

# Names, and links on the way to a file that is written, are text.
not_text='Invalid or incomplete multibyte or wide character'
fresh
odd=$work/place/$(printf 'odd\377')
cp "$damaged.kw" "$odd"
nothing
for command in report mend; do
    run $command "$odd"
    err_is "kw: $odd: $not_text"
    ended "$command, a name that is not UTF-8" 3
done
same "mend, a name that is not UTF-8, the file" "$odd" "$damaged.kw"
run mend - <"$odd"
cp "$damaged.scrub" "$work/want-out"
err_is "stored 2"
ended "mend, the same file on standard input" 0
nothing
ln -s "$odd" "$work/place/link"
run mend "$work/place/link"
err_is "kw: $work/place/link: $not_text"
ended "mend through a link that is not UTF-8" 3
same "mend through a link that is not UTF-8, the file" "$odd" "$damaged.kw"
run report "$work/place/link"
cp "$damaged.report" "$work/want-out"
err_is
ended "report through a link that is not UTF-8" 1

# A reader that is gone ends the command, and nothing is said.
nothing
: >"$work/out"
for command in report mend; do
    { { sleep 0.3; cat "$one.kw"; } | "$kw" $command - 2>"$work/err"; echo $? >"$work/status"; } | :
    ended "$command, a reader that is gone" 141
done

# Into the file itself, into a pipe, and by a name in the present folder.
fresh
run mend "$work/place/image.kw" -o "$work/place/image.kw"
err_is "stored 2"
ended "mend into the file itself" 0
same "mend into the file itself, the file" "$work/place/image.kw" "$damaged.scrub"
mkfifo "$work/place/pipe"
cat "$work/place/pipe" >"$work/piped" &
run mend "$damaged.kw" -o "$work/place/pipe"
wait
ended "mend into a pipe" 0
same "mend into a pipe, the bytes" "$work/piped" "$damaged.scrub"
"$kw" mend "$damaged.kw" -o /dev/stdout 2>"$work/err" | cat >"$work/piped"
same "mend into a pipe by the name /dev/stdout" "$work/piped" "$damaged.scrub"
"$kw" mend "$damaged.kw" -o /dev/stdout 2>"$work/err" >"$work/piped"
same "mend into a file by the name /dev/stdout" "$work/piped" "$damaged.scrub"
fresh
(cd "$work/place" && "$kw" mend image.kw >"$work/out" 2>"$work/err"; echo $? >"$work/status")
ended "mend in the present folder" 0
same "mend in the present folder, the file" "$work/place/image.kw" "$damaged.scrub"
holds "mend in the present folder" "$work/place" image.kw

# 65,537 bytes are more than the programs take; 8,388,608 are taken, and one more is too long.
padded() { # FILE LENGTH
    { cat "$1"; head -c "$2" /dev/zero; } | head -c "$2"
}
for length in 65537 8388608; do
    padded "$damaged.kw" $length >"$work/long"
    padded "$damaged.scrub" $length >"$work/want-long"
    run report "$work/long"
    cp "$damaged.report" "$work/want-out"
    err_is
    ended "report, $length bytes" 1
    run mend "$work/long"
    nothing
    err_is "stored 2"
    ended "mend, $length bytes" 0
    same "mend, $length bytes, the file" "$work/long" "$work/want-long"
done
# A disk that is full half-way, as far as a limit on a file's size can stand for one.
rm -rf "$work/place"
mkdir "$work/place"
padded "$damaged.kw" 65537 >"$work/place/image.kw"
padded "$damaged.kw" 65537 >"$work/long"
for output in "$work/place/image.kw" "$work/place/other.kw"; do
    (trap '' XFSZ; ulimit -f 8; "$kw" mend "$work/place/image.kw" -o "$output" >"$work/out" 2>"$work/err"; echo $? >"$work/status")
    err_is "kw: $output: File too large"
    ended "mend where the disk is full" 3
    same "mend where the disk is full, the file" "$work/place/image.kw" "$work/long"
    holds "mend where the disk is full" "$work/place" image.kw
done
padded "$damaged.kw" 8388609 >"$work/long"
run report "$work/long"
out_is too-long
err_is "kw: $work/long: the image has more than 8388608 bytes (too-long)"
ended "report, 8388609 bytes" 2
run mend "$work/long"
nothing
err_is too-long "kw: $work/long: the image has more than 8388608 bytes (too-long)"
ended "mend, 8388609 bytes" 2

# Arguments that ask for nothing.
fault() { # MESSAGE ARGUMENT...
    message=$1
    shift
    run "$@" </dev/null
    err_is "$message; try kw help"
    ended "arguments: $*" 3
}
fault "kw: a command is missing"
fault "kw: scrub: no such command" scrub image.kw
fault "kw: --bogus: no such option" --bogus
fault "kw: a file is missing" report
fault "kw: a file is missing" mend -o image.kw
fault "kw: other.kw: mend takes one file" mend image.kw other.kw
fault "kw: -o lacks the name of a file" mend image.kw -o
fault "kw: -o: only one -o" mend image.kw -o a -o b
fault "kw: -o: no such option" report image.kw -o a
fault "kw: all: no such command" help all
fault "kw: now: not expected here" version now

echo "command $passed passed, $failed failed"
[ "$failed" -eq 0 ]
