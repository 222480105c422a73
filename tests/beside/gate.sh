#!/usr/bin/env bash
# Runs the proved library beside the Rust: 220,000 calls, compared after each, the messages of these calls rewritten, and states saved and returned to between them. The first run's seed is fixed, and it takes every path of
# the table; the second's is printed, and SEED sets it. Before them question 5 of records whose identifiers are chosen, so that it goes each of its ways; then 2,000 calls under valgrind.
set -eu
cd "$(dirname "$0")/../.."
. tools/setup.sh
have_rust "the library beside the original Rust (tests/beside)" || exit 0
need_library
need_packages valgrind
LIBRARY=$PLUMTREE_LIB_DIR tests/beside/build.sh
beside=tests/target/release/beside
$beside --check crates/beside_sample/stdin
$beside --records
$beside --brief --seed 7 --calls 160000 --every-path
$beside --brief --seed "${SEED:-$(date +%s)}" --calls 60000

# In the process that valgrind watches (--work), not in one of its own.
out=tests/target/under_valgrind
mkdir -p $out
valgrind -q --error-exitcode=9 $beside --work $out/list.txt --brief --seed 5 --calls 2000 >$out/log 2>&1 || { cat $out/log; die "beside: not clean under valgrind"; }
echo "under valgrind: $(tail -n 1 $out/log)"
