#!/usr/bin/env bash
# Runs rt in a crate that stands beside the gate: `tools/beside.sh NAME WORD..`, as
#
#   tools/beside.sh bench run -- core        # proves it, builds it, and runs it with the word `core`
#   tools/beside.sh test_surface try --test  # compiles and runs its tests, with no proof
#
# The files of these crates lie in beside/NAME with other endings, since a repository's .rt and .antt files are read by its gate, all
# of them. rt works in a copy of the repository, in which the crate has its right place and names; the copy lies in the folder that
# BESIDE_COPY names, or in ~/.cache/hurgwaye/beside, and keeps what was proved for the next time. A module that a crate of the gate has
# too is not kept twice: the file beside/NAME/shares names its folder, from crates/ on (or by ../beside/), and it is copied from there. A test has no files, so
# each line `NAME FILE` of beside/NAME/rows makes a constant of the crate's module `rows` of a file, from crates/ on. Two words in place
# of rt's:
#
#   tools/beside.sh bench path               # copies the crate, and prints the path of its folder there
#   tools/beside.sh bench back               # brings back what was edited there, as by `rt fmt`, and copies nothing
set -eu
top=$(cd "$(dirname "${BASH_SOURCE[0]}")/.." && pwd)
copy=${BESIDE_COPY:-$HOME/.cache/hurgwaye/beside}
name=${1:?a crate of beside/}
[ -d "$top/beside/$name" ] || { echo "beside/ has no crate $name" >&2; exit 2; }
shift

# The modules that a crate shares with one of the gate.
shared_by() {
    [ ! -f "$top/beside/$1/shares" ] || cat "$top/beside/$1/shares"
}

# The constants of a crate's module `rows`.
rows_of() {
    echo '//! Files of the repository, as they stand there.'
    while read -r constant file; do
        printf '\n/// `%s`.\npub const %s: &str = r##"' "$file" "$constant"
        cat "$top/crates/$file"
        printf '"##;\n'
    done < "$top/beside/$1/rows"
}

mkdir -p "$copy/crates"
exec 9> "$copy/lock"
flock 9
if [ "${1:-}" = back ]; then
    for part in src specs proofs; do
        [ -d "$copy/crates/$name/$part" ] || continue
        rm -rf "$top/beside/$name/$part"
        cp -a "$copy/crates/$name/$part" "$top/beside/$name/$part"
        find "$top/beside/$name/$part" -name '*.rt' | while read -r file; do mv "$file" "${file%.rt}.rattle"; done
        find "$top/beside/$name/$part" -name '*.antt' | while read -r file; do mv "$file" "${file%.antt}.proof"; done
    done
    # What is shared is edited where it stands, and rows too.
    [ ! -f "$top/beside/$name/rows" ] || rm -f "$top/beside/$name/src/rows.rattle"
    shared_by "$name" | while read -r folder; do rm -rf "$top/beside/$name/src/$(basename "$folder")"; done
    exit
fi
# All goes but what rt keeps: so no file stays that the repository has no more.
find "$copy" -mindepth 1 -maxdepth 1 ! -name crates ! -name lock -exec rm -rf {} +
find "$copy/crates" -mindepth 2 -maxdepth 2 ! -name out -exec rm -rf {} +
tar -C "$top" --exclude='./crates/*/out' --exclude=./.git -cf - . | tar -C "$copy" -xf -
# What was proved here needn't be proved there. To try wants none of it.
if [ "${1:-}" != path ] && [ "${1:-}" != try ]; then
    for folder in "$top"/crates/*/out; do
        kept=$copy/crates/$(basename "$(dirname "$folder")")/out
        if [ -d "$folder" ] && [ ! -d "$kept" ]; then cp -a "$folder" "$kept"; fi
    done
fi
for folder in "$top"/beside/*/; do
    crate=$copy/crates/$(basename "$folder")
    mkdir -p "$crate"
    cp -a "$folder." "$crate/"
    shared_by "$(basename "$folder")" | while read -r module; do cp -a "$top/crates/$module" "$crate/src/"; done
    find "$crate" -path "$crate/out" -prune -o -name '*.rattle' -print | while read -r file; do mv "$file" "${file%.rattle}.rt"; done
    find "$crate" -path "$crate/out" -prune -o -name '*.proof' -print | while read -r file; do mv "$file" "${file%.proof}.antt"; done
    [ ! -f "$folder/rows" ] || rows_of "$(basename "$folder")" > "$crate/src/rows.rt"
done
cat "$top/beside/stands-on.txt" >> "$copy/crates.txt"
rm -rf "$copy/beside"
if [ "${1:-}" = path ]; then
    echo "$copy/crates/$name"
    exit
fi
cd "$copy/crates/$name"
rt "$@"
