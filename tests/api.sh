#!/bin/sh
# The C API as its users meet it, called by 'make api' with the archive and the shared library: the example
# is run on the images of tests/answers/programs, which must give tests/firmware.txt, plainly, under valgrind,
# with the sanitizers, and built against an installed copy; the Python example is run; the replay is run
# under valgrind; the stack that a call takes is measured. The last line is 'api N passed, M failed'; exit
# status 0 only if M is 0.
set -u
library=$1
shared=$2
work=$(mktemp -d) || exit 2
trap 'rm -rf "$work"' EXIT
strict='-std=c11 -Wall -Wextra -Werror'
memory='valgrind -q --error-exitcode=99 --leak-check=full'
passed=0
failed=0

# Runs a case and shows what it printed if it ended badly.
holds() { # NAME COMMAND...
    name=$1
    shift
    if "$@" >"$work/out" 2>&1; then
        echo "api: $name"
        passed=$((passed + 1))
    else
        echo "api: $name FAILED"
        cat "$work/out"
        failed=$((failed + 1))
    fi
}

left_out() { # TOOL
    ! command -v "$1" >/dev/null && echo "api: no $1 here, its case is left out"
}

# The example, called by the given words, says of every image what is expected.
says() { # COMMAND...
    for image in damaged uncorrectable march one-row unprotected refused; do
        echo "== $image"
        "$@" "tests/answers/programs/$image.kw" 2>&1
        echo "status $?"
    done >"$work/said"
    diff tests/firmware.txt "$work/said"
}

sanitized() {
    gcc $strict -g -fsanitize=address,undefined -fno-sanitize-recover -Iinclude \
        host/example/firmware.c "$library" -o "$work/sanitized" && says "$work/sanitized"
}

# The functions that kw.h declares, one a line.
functions() {
    sed -n 's/^uint32_t \(kw_[a-z_]*\)(.*/\1/p' include/kw.h | sort
}

install_to() { # DESTDIR WORD-FOR-MAKE
    make install DESTDIR="$1" "$2" KW_LIB="$library"
}

# PREFIX= and prefix= install the same files. None is called report or scrub.
names_of_the_prefix() {
    install_to "$work/upper" PREFIX=/opt/kw && install_to "$work/lower" prefix=/opt/kw || return 1
    diff -r "$work/upper" "$work/lower" || return 1
    ! find "$work/lower" -name 'report*' -o -name 'scrub*' | grep .
}

# The installed programs run, and there is a page for the library and for each of its functions.
installed() {
    install_to "$work/dest" prefix=/opt/kw || return 1
    bin=$work/dest/opt/kw/bin man=$work/dest/opt/kw/share/man
    "$bin/kw-report" <tests/answers/programs/damaged.kw | cmp - tests/answers/programs/damaged.report || return 1
    "$bin/kw-scrub" <tests/answers/programs/damaged.kw 2>"$work/line" | cmp - tests/answers/programs/damaged.scrub || return 1
    version=$(sed -n 's/^#define KW_LIBRARY_VERSION_[A-Z]* //p' include/kw.h | paste -s -d.)
    format=$(sed -n 's/.*KW_FORMAT_VERSION = \([0-9]*\),.*/\1/p' include/kw.h)
    [ "$("$bin/kw" version)" = "kw $version, image format $format" ] || return 1
    for page in kw.1 kw-report.1 kw-scrub.1; do
        cmp "docs/man/$page" "$man/man1/$page" || return 1
    done
    cmp docs/man/kw.3 "$man/man3/kw.3" || return 1
    for function in $(functions) kw_refusal_name; do
        [ "$(cat "$man/man3/$function.3")" = ".so man3/kw.3" ] || return 1
        grep -q "$function" docs/man/kw.3 || return 1
    done
}

# The example is built with what pkg-config says of the installed copy, and with nothing of this folder: with
# the shared library, and with the archive.
built_against_it() {
    lib=$work/dest/opt/kw/lib
    export PKG_CONFIG_PATH="$lib/pkgconfig" PKG_CONFIG_SYSROOT_DIR="$work/dest"
    flags=$(pkg-config --cflags --libs kw) || return 1
    cp host/example/firmware.c "$work/firmware.c"
    (cd "$work" && gcc $strict firmware.c $flags -o dynamic) || return 1
    readelf -d "$work/dynamic" | grep -q 'NEEDED.*libkw.so.0' || return 1
    says env LD_LIBRARY_PATH="$lib" "$work/dynamic" || return 1
    (cd "$work" && gcc $strict firmware.c $(echo "$flags" | sed 's/-lkw/-l:libkw.a/') -o static) || return 1
    says "$work/static" || return 1
    sed -n 's/^#define KW_LIBRARY_VERSION_[A-Z]* //p' include/kw.h | paste -s -d. >"$work/version"
    pkg-config --modversion kw | diff - "$work/version"
}

# What was installed is removed, and nothing else: a file of another's stays.
uninstalled() {
    : >"$work/dest/opt/kw/lib/another"
    make uninstall DESTDIR="$work/dest" prefix=/opt/kw || return 1
    [ "$(find "$work/dest" ! -type d)" = "$work/dest/opt/kw/lib/another" ]
}

# The shared library shows the functions of kw.h and no other name.
shows_kw_alone() {
    functions >"$work/functions"
    nm -D --defined-only "$shared" | sed 's/.* //' | sort | diff - "$work/functions" || return 1
    readelf -d "$shared" | grep -q "SONAME.*\[${shared##*/}\]"
}

# A kind that is there, one that is not, a refused image.
python_example() {
    {
        python3 host/example/region.py "$shared" tests/answers/programs/damaged.kw 7
        python3 host/example/region.py "$shared" tests/answers/programs/damaged.kw 9
        python3 host/example/region.py "$shared" tests/answers/programs/7-out-of-bounds.kw 7 && echo "status 0"
    } >"$work/said" 2>&1
    printf '72 bytes from 320 on, flags 2\nno such region\nrefused 7 1\n' | diff - "$work/said"
}

# kw_refusal_name gives the names of FORMAT 2.
refusals_named() {
    cat >"$work/names.c" <<'END'
#include <stdio.h>
#include "kw.h"
int main(void) {
    for (uint32_t number = 1; number <= KW_BAD_PLAN; number++)
        printf("| %u | %s |\n", (unsigned)number, kw_refusal_name(number));
    return kw_refusal_name(KW_BAD_PLAN + 1)[0] != 'U' || kw_refusal_name(KW_OK)[0] != 'O';
}
END
    gcc $strict -Iinclude "$work/names.c" -o "$work/names" && "$work/names" >"$work/named" || return 1
    grep -o '^| [0-9]* | [A-Za-z]* |' docs/FORMAT.md | diff - "$work/named"
}

# Where pointers have 32 bits the header says so.
refuses_32_bits() {
    ! gcc -m32 -ffreestanding -fsyntax-only -x c include/kw.h 2>"$work/said" &&
        grep -q 'error.*pointers must have 64 bits' "$work/said"
}

# Firmware may have no C library: the archive asks for memset and nothing else.
needs_memset_alone() {
    test "$(nm -u "$library" | sed -n 's/.* U //p' | sort -u)" = memset
}

# Functions are re-entrant: the archive has no section that may be written.
keeps_nothing() {
    readelf -S -W "$library" | grep -q ' AX ' && ! readelf -S -W "$library" | grep ' WA '
}

# What the writer makes, the reader loads as it is.
written() { # COMMAND...
    "$@" >"$work/image" && host/build/firmware "$work/image" >"$work/loaded" || return 1
    cat "$work/loaded"
    grep -qx 'mend: 0 bytes stored, whole' "$work/loaded"
}

holds "the example says what it should" says host/build/firmware
holds "a written image is loaded" written host/build/make_image
holds "the same with the sanitizers" sanitized
left_out g++ || holds "the header is C++ too" g++ -Wall -Wextra -Werror -fsyntax-only -x c++ include/kw.h
holds "the header refuses pointers of 32 bits" refuses_32_bits
holds "the header names the refusals" refusals_named
holds "the archive needs memset alone" needs_memset_alone
holds "the archive has no data that is written" keeps_nothing
holds "the shared library shows the functions of kw.h alone" shows_kw_alone
left_out python3 || holds "the Python example finds a region" python_example
holds "no call takes more stack than kw.h says" host/build/stack
sed 's/^/api:   /' "$work/out"
holds "PREFIX and prefix are one" names_of_the_prefix
holds "programs and pages are installed" installed
left_out pkg-config || holds "the example is built against the installed copy" built_against_it
holds "what was installed is removed" uninstalled
left_out valgrind || {
    holds "the same under valgrind" says $memory host/build/firmware
    holds "a written image under valgrind" written $memory host/build/make_image
    holds "the replay under valgrind" $memory host/build/replay tests/answers/*.txt
}
echo "api $passed passed, $failed failed"
[ "$failed" -eq 0 ]
