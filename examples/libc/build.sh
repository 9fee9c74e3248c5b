#!/bin/sh
# Builds the examples over a C library with Debian's gcc-riscv64-unknown-elf and picolibc-riscv64-unknown-elf.
#
#     examples/libc/build.sh [FOLDER]
#
# The images go to FOLDER, examples/libc/images where none is given. Where the cross compiler or the library is
# missing this says so, and ends with status 3.

here=$(cd "$(dirname "$0")" && pwd) || exit 1
to=${1:-$here/images}
compiler=riscv64-unknown-elf-gcc

lack() {
    echo "examples/libc/build.sh: no $1 (Debian's package $2); nothing is built" >&2
    exit 3
}

command -v $compiler >/dev/null || lack $compiler gcc-riscv64-unknown-elf
[ -f "$($compiler -print-file-name=picolibc.specs)" ] \
    || lack picolibc.specs picolibc-riscv64-unknown-elf
mkdir -p "$to" || exit 1

for folder in "$here"/*/; do
    name=$(basename "$folder")
    [ -f "$folder/$name.c" ] || continue
    $compiler --specs=picolibc.specs -march=rv32im -mabi=ilp32 -O2 -Wall -Wextra -Werror \
        -nostartfiles -static -s -Wl,--build-id=none -T "$here/link.ld" \
        -o "$to/$name" "$here/start.s" "$here/system.c" "$folder/$name.c" -lm || exit 1
done
