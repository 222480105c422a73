#!/usr/bin/env bash
# wrong.sh [NUMBER ..]: is it told where a library changes a byte that it must not change? wrong.c has such changes, each with what a run beside the Rust has to tell of it. Each is
# run with seed 7 until something differs, for at most 40,000 calls. No part of the gate: it tests the tests.
set -euo pipefail
cd "$(dirname "$0")/../../.."
. tools/setup.sh
have_rust "tests/beside/wrong" || exit 0
need_library
need_packages binutils gcc libc6-dev
here=tests/beside/wrong out=$PWD/tests/target/wrong
mkdir -p "$out"

# The library, with other names for its functions, below the wrong ones.
rename=()
for name in block_size create event alike limit_met rewrite save return; do rename+=(--redefine-sym "plumtree_$name=right_$name"); done
objcopy "${rename[@]}" "$PLUMTREE_LIB_DIR/libplumtree.a" "$out/right.a"
gcc -O1 -Wall -Wextra -fPIC -shared -I include -o "$out/libplumtree.so" "$here/wrong.c" "$out/right.a"
if [ -z "${BESIDE:-}" ]; then
    tests/rust/build.sh
    (cd tests/beside && PLUMTREE_LIB_DIR=$out PLUMTREE_LIB_KIND=dylib CARGO_TARGET_DIR=$out cargo build --release --offline -j 1)
fi
beside=${BESIDE:-$out/release/beside}

run() { # NUMBER
    WRONG=$1 LD_LIBRARY_PATH=$out "$beside" --brief --no-shrink --seed 7 --calls 40000 2>/dev/null || true
}

run 0 | grep -q ' 0 different' || die "with no change something differs"
untold=0 all=0
while IFS=$'\t' read -r number what told; do
    [ $# -eq 0 ] || [[ " $* " == *" $number "* ]] || continue
    all=$((all + 1))
    said=$(run "$number" | grep -m 1 '^DIFFERENT: ' || echo "nothing differs")
    case $said in
    *"$told"*) echo "$number $what: ${said#DIFFERENT: seed 7 }" ;;
    *) untold=$((untold + 1)) && echo "$number $what: NOT TOLD ($told): $said" ;;
    esac
done < <(sed -nE 's#^ *change\(([0-9]+), .*/\* (.*) \| (.+) \*/$#\1\t\2\t\3#p' "$here/wrong.c")
echo "$all changes, $untold not told"
[ "$untold" -eq 0 ] && [ "$all" -gt 0 ]
