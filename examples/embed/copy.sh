#!/bin/sh
# Makes a repository of your own with a small program over the crates, that of crates/asc_embed, which is called embed
# there. It has the crates that this stands on, and their lines of crates.txt.
#
#     examples/embed/copy.sh FOLDER
#
# FOLDER is made, and may not be there yet. The program is tried before any proof, and then proved, by
#
#     cd FOLDER/crates/embed
#     rt try --data life=data/life -- life 10684 <stdin
#     rt run -- data/life 10684 <stdin
set -e
[ $# -eq 1 ] || { echo "examples/embed/copy.sh: wants a folder to make" >&2; exit 64; }
[ ! -e "$1" ] || { echo "examples/embed/copy.sh: $1 is there already" >&2; exit 73; }
root=$(cd "$(dirname "$0")/../.." && pwd)
mkdir -p "$1/crates"

# stands_on NAME: the line of a crate, which may have words of its own before the colon, and those of all under it.
stands_on() {
    line=$(grep "^$1[ :]" "$root/crates.txt") || return 0
    echo "$line"
    for name in ${line#*:}; do
        stands_on "$name"
    done
}

stands_on asc_embed | awk '!seen[$0]++' | sed 's/^asc_embed:/embed:/' >"$1/crates.txt"
sed 's/[ :].*//' "$1/crates.txt" | while read -r name; do
    [ "$name" = embed ] && from=asc_embed || from=$name
    mkdir "$1/crates/$name"
    for part in src specs proofs data args stdin stdout; do
        [ ! -e "$root/crates/$from/$part" ] || cp -R "$root/crates/$from/$part" "$1/crates/$name/$part"
    done
done
(cd "$root/crates/asc_embed" && find src proofs -type f) | while read -r file; do
    sed 's/asc_embed/embed/g' "$root/crates/asc_embed/$file" >"$1/crates/embed/$file"
done
