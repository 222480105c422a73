#!/bin/sh
# Builds ../target/release/beside against the library in the directory LIBRARY names (libplumtree.a). With the word `fair` also
# ../target/fair/beside, without overflow checks in the Rust, for times. One core, no crates registry.
set -eu
: "${LIBRARY:?names the directory of libplumtree.a}"
# where the binding for Rust looks
PLUMTREE_LIB_DIR=$(cd "$LIBRARY" && pwd)
export PLUMTREE_LIB_DIR
cd "$(dirname "$0")"
../rust/build.sh
cargo build --release --offline -j 1
[ "${1:-}" != fair ] || cargo build --profile fair --offline -j 1
echo "built: tests/target/release/beside"
