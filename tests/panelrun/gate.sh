#!/usr/bin/env bash
# The stored outputs of `panelrun` are the Rust's. That the program writes them is for `rt ci`.
set -eu
cd "$(dirname "$0")/../.."
. tools/setup.sh
have_rust "whether the stored outputs of panelrun are the original Rust's (tests/panelrun)" || exit 0
need_packages python3
[ -x tests/target/release/oracle ] || tests/rust/build.sh
python3 tests/panelrun/make.py check
