#!/usr/bin/env bash
# The stored answers are the Rust's, and the module that the check computes is made of them (its `unfolding` lines, which list definitions, apart).
set -eu
cd "$(dirname "$0")/../.."
. tools/setup.sh
need_packages python3
diff <(python3 tests/definitions/sample.py module tests/definitions/calls.txt | grep -v '^unfolding ') <(grep -v '^unfolding ' crates/rust_sample/proofs/RustSample.antt)
have_rust "whether the original Rust still gives the stored answers (tests/definitions)" || exit 0
[ -x tests/target/release/oracle ] || tests/rust/build.sh
python3 tests/definitions/sample.py replay tests/definitions/calls.txt tests/target/release/oracle
