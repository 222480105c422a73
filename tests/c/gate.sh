#!/usr/bin/env bash
# The library called from C: the headers by themselves as C and C++, each number's text, the examples with what they print, what a host loses
# readings by, each refusal, which panels are alike, named states beside a model and those of an older library, all under valgrind; and the stack that
# its calls take.
# PLUMTREE_LIB_DIR can name the directory of another libplumtree.a than the proved one.
set -euo pipefail
cd "$(dirname "$0")/../.."
. tools/setup.sh
need_packages binutils gcc g++ libc6-dev python3 valgrind
out=target/c
mkdir -p "$out"
strict="-Wall -Wextra -pedantic -Werror"
under_valgrind="valgrind -q --error-exitcode=9 --leak-check=full --errors-for-leak-kinds=all"

# The headers by themselves, as each language reads them.
for header in include/plumtree.h examples/c/wire.h; do
    # shellcheck disable=SC2086
    for std in c99 c11 c17; do gcc -std=$std $strict -I include -fsyntax-only -x c "$header" || die "$header as $std"; done
    # shellcheck disable=SC2086
    for std in c++11 c++17; do g++ -std=$std $strict -I include -fsyntax-only -x c++ "$header" || die "$header as $std"; done
done

# docs/LINKING.md shows what the examples print.
linking=$(cat docs/LINKING.md)
for printed in examples/c/first_broadcast examples/c/three_panels examples/c/archive examples/c/commissioning examples/c/commissioning_sheet tests/c/host_rules; do
    case $linking in *"$(sed 's/^/    /; s/ *$//' "$printed.expected")"*) ;; *) die "docs/LINKING.md does not show $printed.expected" ;; esac
done

# Each number's text, held against the lines that the binding's errors are held against.
# shellcheck disable=SC2086
gcc -std=c99 -g $strict -I include -o "$out/numbers" tests/c/numbers.c
$under_valgrind "$out/numbers" | diff bindings/rust/tests/numbers.txt -

# What reads the stack of compiled functions tells what these take, or refuses.
python3 tests/c/stack_bound_test.py

need_library
lib=$PLUMTREE_LIB_DIR

# It needs memcpy, memmove and memset, and has no variable of its own, as the header says.
needs=$(nm "$lib/libplumtree.a" | sed -n 's/^ *U //p' | sort -u)
makes=$(nm "$lib/libplumtree.a" | sed -n 's/^[0-9a-f]* [A-Z] //p' | sort -u)
[ -z "$(comm -23 <(echo "$needs") <(printf '%s\n' "$makes" memcpy memmove memset | sort -u))" ] || die "libplumtree.a needs more than the header says: $needs"
[ -z "$(nm "$lib/libplumtree.a" | grep -E ' [bBdDcC] ' || true)" ] || die "libplumtree.a has a variable of its own"

# The examples, as their comments build them.
for example in first_broadcast three_panels archive commissioning commissioning_sheet; do
    # shellcheck disable=SC2086
    gcc -std=c99 -g $strict -I include -o "$out/$example" "examples/c/$example.c" "$lib/libplumtree.a"
    $under_valgrind "$out/$example" | diff "examples/c/$example.expected" -
done

# What a host loses readings by: the tables of docs/LINKING.md; fewer runs under valgrind.
# shellcheck disable=SC2086
gcc -std=c99 -O2 -g $strict -I include -I examples/c -o "$out/host_rules" tests/c/host_rules.c "$lib/libplumtree.a"
"$out/host_rules" | diff tests/c/host_rules.expected -
$under_valgrind "$out/host_rules" 1 >/dev/null

# Each refusal, and where the structs' fields are; as C and as C++.
for flags in -O0 -O2; do
    # shellcheck disable=SC2086
    gcc -std=c99 $flags -g $strict -I include -I examples/c -o "$out/calls" tests/c/calls.c "$lib/libplumtree.a"
    $under_valgrind "$out/calls"
done
# shellcheck disable=SC2086
g++ -std=c++11 -g $strict -I include -I examples/c -o "$out/calls_cpp" -x c++ tests/c/calls.c -x none "$lib/libplumtree.a"
"$out/calls_cpp" >/dev/null

# Whether two panels are alike, in each order that is seen and each that is not.
# shellcheck disable=SC2086
gcc -std=c99 -g $strict -I include -I examples/c -o "$out/alike" tests/c/alike.c "$lib/libplumtree.a"
$under_valgrind "$out/alike"

# Named states beside a model: the histories and every bit of an area changed; fewer of both under valgrind.
# shellcheck disable=SC2086
gcc -std=c99 -O2 -g $strict -I include -I examples/c -o "$out/states" tests/c/states.c "$lib/libplumtree.a"
"$out/states"
$under_valgrind "$out/states" 12000 397 >/dev/null

# Named states that an older library wrote, one that took a broadcast for neighbours alone.
# shellcheck disable=SC2086
gcc -std=c99 -g $strict -I include -I examples/c -o "$out/older_area" tests/c/older_area.c "$lib/libplumtree.a"
$under_valgrind "$out/older_area" tests/c/older_area.txt

# The stack that the calls take, below what the header says: measured, and a bound of every path that the compiled code has.
# shellcheck disable=SC2086
gcc -std=c99 -O2 $strict -pthread -I include -I examples/c -o "$out/stack" tests/c/stack.c "$lib/libplumtree.a"
"$out/stack" >"$out/stack.measured"
python3 tests/c/stack_bound.py "$lib/libplumtree.a" 65536 "$out/stack.measured"
echo "tests/c: the headers, the examples, the rules of a host, each refusal, which panels are alike, named states and the stack are as promised"
