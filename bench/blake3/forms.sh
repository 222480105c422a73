#!/bin/sh
# Times of the identifier in several forms, which take turns:
#     bench/blake3/forms.sh [SECONDS for each size]       # its code as it stands, twice
#     bench/blake3/forms.sh SECONDS COMMIT ..             # and that code as it was at each commit
#     bench/blake3/forms.sh SECONDS NAME=ARCHIVE ..       # these archives alone, as `tools/staticlib.sh exports` writes them
# The first two are built without proofs, for the measurement alone: LLVM is told less there than of a proved crate, so their times compare the forms with each other only.
# A commit before the code was brought to this kit is not built. Needs rustc and cc.
set -eu
here=$(cd "$(dirname "$0")" && pwd)
root=$(cd "$here/../.." && pwd)
seconds=${1:-4}
[ $# -eq 0 ] || shift
work=$(mktemp -d)
trap 'rm -rf "$work"' EXIT
libraries=

# the sources of a form, at $work/NAME
begin() {
    mkdir -p "$work/$1/crates"
    cp "$root/crates.txt" "$work/$1/"
    for c in storage time_cache postcard blake3 exports; do cp -r "$root/crates/$c" "$work/$1/crates/"; done
}

# the library of them
finish() {
    CHECKS=no bash "$root/tests/mutants/build.sh" "$work/$1" "$work/$1.so" exports
    libraries="$libraries $1=$work/$1.so"
}

archives() {
    for a in "$@"; do
        cc -shared -o "$work/${a%%=*}.so" -Wl,--whole-archive "${a#*=}" -Wl,--no-whole-archive
        libraries="$libraries ${a%%=*}=$work/${a%%=*}.so"
    done
}

forms() {
    for same in as_it_stands the_same_again; do
        begin "$same"
        finish "$same"
    done
    for commit in "$@"; do
        begin "$commit"
        rm -r "$work/$commit/crates/blake3/src"
        git -C "$root" archive "$commit" crates/blake3/src | tar -x -C "$work/$commit"
        finish "$commit"
    done
}

case ${1:-} in
*=*) archives "$@" ;;
*) forms "$@" ;;
esac
rustc --edition 2021 -O "$here/src/forms.rs" -o "$work/forms"
# shellcheck disable=SC2086
"$work/forms" "$seconds" $libraries
