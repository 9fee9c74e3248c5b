#!/bin/sh
# Builds the examples with Debian's gcc-riscv64-unknown-elf.
#
#     examples/build.sh [FOLDER]
#
# The images go to FOLDER, examples/images where none is given. Where there is no cross compiler this says so,
# and ends with status 3. libc/build.sh builds those over a C library.

here=$(cd "$(dirname "$0")" && pwd) || exit 1
to=${1:-$here/images}
compiler=riscv64-unknown-elf-gcc

if ! command -v $compiler >/dev/null; then
    echo "examples/build.sh: no $compiler (Debian's package gcc-riscv64-unknown-elf); nothing is built" >&2
    exit 3
fi
mkdir -p "$to" || exit 1

# What every program wants: instructions and registers that asc has, no call of memcpy or memset that gcc
# makes up out of a loop, no library and no start-up code of the compiler's, and no dynamic linking.
flags="-march=rv32im -mabi=ilp32 -O2 -ffreestanding -fno-tree-loop-distribute-patterns -Wall -Wextra -Werror"
linking="-nostdlib -static -s -Wl,--build-id=none"

for folder in "$here"/*/; do
    name=$(basename "$folder")
    if [ -f "$folder/$name.s" ]; then
        sources="$folder/$name.s"
    elif [ "$name" = life ] || [ "$name" = copies ]; then
        sources="$here/start.s $here/memory.c $folder/$name.c"
    elif [ -f "$folder/$name.c" ]; then
        sources="$here/start.s $folder/$name.c"
    else
        continue
    fi
    # shellcheck disable=SC2086
    $compiler $flags $linking -T "$here/link.ld" -I "$here" -o "$to/$name" $sources -lgcc || exit 1
done
