#!/bin/sh
# Builds the oracle: the Rust original, unchanged, as a program that answers a stream of texts.
#
#   oracle/build.sh [--timed] [--repaired] [BUILD]
#
# The five Rust files come from the folder that PITCHSLEET_RUST_SRC names, ../shared/docs/src by default; a relative
# name counts from the repository's root. They are put together with the manifests, the stand-ins and the driver in
# BUILD, target/oracle by default, compared byte for byte with where they come from, and built there: nothing is written
# into the tree. Standard output is the program's path. With --timed it is built without overflow checks and debug
# assertions, for the benchmark.
# With --repaired another program is built, in the folder `repaired` of BUILD, for the benchmark too: the same files, but
# for the lexer's look at a character, which counts there from the text's first one each time, and here does not.
# Where no folder has that name, standard output is empty, one line on standard error says so, and the exit status is 0.
# Needs cargo, and no network.
set -eu

profile=release
if [ "${1:-}" = --timed ]; then
    profile=timed
    shift
fi
repaired=
if [ "${1:-}" = --repaired ]; then
    repaired=/repaired
    shift
fi
here=$(CDPATH='' cd -- "$(dirname "$0")" && pwd)
cd "$here/.."
source=${PITCHSLEET_RUST_SRC:-../shared/docs/src}
build=${1:-target/oracle}$repaired
originals='utils/src/lib.rs analysis/src/cfg.rs bril-lib/src/lexer.rs bril-lib/src/ir.rs bril-lib/src/parser.rs'
lexer=bril-lib/src/lexer.rs

if [ ! -d "$source" ]; then
    echo "oracle: no folder $source (PITCHSLEET_RUST_SRC): the comparison with the Rust is passed over" >&2
    exit 0
fi

# A file that has not changed keeps its time, so that cargo builds only what has. One that has is put in place at once:
# another build may be running.
put() {
    cmp -s "$1" "$2" && return
    mkdir -p "$(dirname "$2")"
    cp "$1" "$2.$$"
    chmod u+w "$2.$$"
    mv "$2.$$" "$2"
}

# edit FILE OLD NEW: the one OLD in FILE becomes NEW. Where there is none, or more than one, nothing is built.
edit() {
    found=$(grep -oF -- "$2" "$1" | wc -l)
    if [ "$found" -ne 1 ]; then
        echo "oracle: '$2' stands $((found)) times in $lexer, and not once: it can't be repaired" >&2
        exit 1
    fi
    old=$(printf '%s' "$2" | sed 's/[].[*^$\/]/\\&/g')
    new=$(printf '%s' "$3" | sed 's/[&\/]/\\&/g')
    sed "s/$old/$new/" "$1" > "$1.edited"
    mv "$1.edited" "$1"
}

# The lexer looks at the next character in two places. By then it has made sure that the text is ASCII, so that a character
# is a byte, and a byte is found at its index at once.
repair() {
    edit "$1" 'chars().nth(self.current).map_or' 'bytes().nth(self.current).map(char::from).map_or'
    edit "$1" 'chars().nth(self.current) ==' 'bytes().nth(self.current).map(char::from) =='
    if grep -qF 'chars()' "$1"; then
        echo "oracle: something else counts characters in $lexer: it can't be repaired" >&2
        exit 1
    fi
}

for file in $(cd "$here" && find Cargo.toml original stand-ins driver -type f); do
    put "$here/$file" "$build/$file"
done
for file in $originals; do
    if [ -n "$repaired" ] && [ "$file" = "$lexer" ]; then
        copy=$(mktemp)
        trap 'rm -f "$copy" "$copy.edited"' EXIT
        cat "$source/$file" > "$copy"
        repair "$copy"
        put "$copy" "$build/original/$file"
    else
        put "$source/$file" "$build/original/$file"
        cmp "$source/$file" "$build/original/$file" >&2
    fi
done
build=$(CDPATH='' cd -- "$build" && pwd)
(cd "$build" && cargo build --profile "$profile" --offline --quiet --target-dir "$build/target") >&2
echo "$build/target/$profile/oracle"
