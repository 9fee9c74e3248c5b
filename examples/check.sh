#!/bin/sh
# Runs the examples on asc and on qemu-riscv32, and compares what they write to standard output and standard
# error, and their exit statuses, byte for byte: with one another, and with what is known. Then it has
# docs/signatures.py compare a list with the sources, tools/check.py try the tools, and docs/commands.py run the
# commands of documents.
#
#     examples/check.sh [PROGRAM]
#
# PROGRAM is the built asc, crates/asc_cli/out/asc_cli where none is given; `rt ci` at the top and `rt run` in
# crates/asc_cli build it. Where crates/asc_show/out/asc_show, qemu-riscv32 (Debian's package qemu-user), the
# cross compiler (gcc-riscv64-unknown-elf), its C library (picolibc-riscv64-unknown-elf) or python3 is missing, a
# line says what is left out. The status is 0 where nothing differs, and else 1.

here=$(cd "$(dirname "$0")" && pwd) || exit 1
root=$(dirname "$here")
asc=${1:-$root/crates/asc_cli/out/asc_cli}
show=$root/crates/asc_show/out/asc_show
emulator=qemu-riscv32
documents='README.md docs/GUIDE.md docs/TUTORIAL.md'
room=$(mktemp -d) || exit 1
trap 'rm -rf "$room"' EXIT
failed=0 compared=0

differ() {
    echo "examples/check.sh: $1"
    failed=$((failed + 1))
}

has() {
    command -v "$1" >/dev/null || { echo "examples/check.sh: no $1: $2 is left out"; return 1; }
}

# outcome NAME INPUT COMMAND..: keeps what the command writes, and its status, under this name.
outcome() {
    kept=$room/$1 from=$2
    shift 2
    "$@" <"$from" >"$kept.out" 2>"$kept.err"
    echo $? >"$kept.status"
}

# alike WHAT NAME NAME: says whether two kept outcomes are the same.
alike() {
    for part in out err status; do
        cmp -s "$room/$2.$part" "$room/$3.$part" || differ "$1: $part differs"
    done
    compared=$((compared + 1))
}

# try IMAGE INPUT: runs an image on asc and on the other emulator, and compares both with what is kept as
# `known`.
try() {
    outcome asc "$2" "$asc" run "$1"
    alike "asc run $1 <$2" asc known
    if [ $emulates = yes ]; then
        outcome other "$2" $emulator "$1"
        alike "$emulator $1 <$2" other known
    fi
}

# runs SOURCES IMAGES: each program of the first folder on its input, with its image in the second.
runs() {
    for expected in "$1"/*/expected; do
        folder=$(dirname "$expected")
        input=$folder/input
        [ -f "$input" ] || input=/dev/null
        cp "$expected" "$room/known.out"
        : >"$room/known.err"
        echo 0 >"$room/known.status"
        try "$2/$(basename "$folder")" "$input"
    done
}

# all_runs IMAGES: each program without a C library, and a few on what they refuse.
all_runs() {
    runs "$here" "$1"
    : >"$room/known.out"
    echo 2 >"$room/known.status"
    refused "$1/quicksort" 'quicksort: not a number' '3 1x 2'
    refused "$1/quicksort" 'quicksort: not a number' '2147483648'
    refused "$1/matrix" 'matrix: wants a side from 1 to 2048' '0'
    refused "$1/collatz" 'collatz: wants a number from 1 on' '-1'
    refused "$1/ising" 'ising: wants a number of lattices, a side from 1 to 1024, and a seed' '5 16'
    refused "$1/mandel" 'mandel: wants columns and rows of at most 262144 cells, and a number of rounds' '1024 257 9'
    refused "$1/sieve" 'sieve: wants a number from 3 to 67108864' '2'
    refused "$1/queens" 'queens: wants a number from 2 to 16' '17'
    typed "$1/adder"
}

# all_library_runs IMAGES: the same of the programs over a C library.
all_library_runs() {
    runs "$here/libc" "$1"
    : >"$room/known.out"
    echo 2 >"$room/known.status"
    refused "$1/statistics" 'statistics: line 1: not a number' 'one'
    refused "$1/statistics" 'statistics: line 1: out of range' '1e999'
}

# typed IMAGE: types to the program on both, and has each line answered before the next.
typed() {
    has python3 "typing to $1" || return
    python3 "$here/typed.py" "$asc" run "$1" || differ "typed.py asc run $1"
    [ $emulates = no ] || python3 "$here/typed.py" $emulator "$1" || differ "typed.py $emulator $1"
}

# refused IMAGE LINE INPUT: the program writes this line to standard error, and ends with status 2.
refused() {
    echo "$2" >"$room/known.err"
    echo "$3" >"$room/input"
    try "$1" "$room/input"
}

[ -x "$asc" ] || { echo "examples/check.sh: no program $asc; rt run in crates/asc_cli builds it"; exit 1; }
emulates=no
has $emulator "the comparison with another emulator" && emulates=yes

if has python3 "the comparison of examples/*/expected with Python"; then
    python3 "$here/expected.py" --check || differ "expected.py --check"
fi
all_runs "$here/images"
all_library_runs "$here/libc/images"

# made_alike RUNS IMAGES BUILT: compares images with what was built anew, which is run too where it differs.
made_alike() {
    if diff -r "$2" "$3" >/dev/null; then
        echo "examples/check.sh: ${2#"$root/"} is what the cross compiler makes of the sources"
    else
        echo "examples/check.sh: this cross compiler makes others of the sources than ${2#"$root/"}; these are run too"
        "$1" "$3"
    fi
}

if has riscv64-unknown-elf-gcc "the comparison of the images with their sources"; then
    "$here/build.sh" "$room/images" || differ "build.sh"
    made_alike all_runs "$here/images" "$room/images"
    "$here/libc/build.sh" "$room/library_images"
    case $? in
        0) made_alike all_library_runs "$here/libc/images" "$room/library_images" ;;
        3) echo "examples/check.sh: the comparison of the images over a C library is left out" ;;
        *) differ "libc/build.sh" ;;
    esac
fi

if has python3 "the comparison of signatures in docs/EMBEDDING.md with the sources"; then
    python3 "$root/docs/signatures.py" --check || differ "signatures.py --check"
fi

if has python3 "the trial of the tools"; then
    python3 "$root/tools/check.py" "$asc" || differ "tools/check.py"
fi

if has python3 "the run of the documents' commands"; then
    for document in $documents; do
        if [ "$document" != README.md ] && [ ! -x "$show" ]; then
            echo "examples/check.sh: no program $show: $document is left out"
        else
            python3 "$root/docs/commands.py" --program "$asc" "$root/$document" || differ "$document"
        fi
    done
fi

echo "examples/check.sh: $compared outcomes compared, $failed differences"
[ $failed -eq 0 ]
