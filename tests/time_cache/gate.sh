#!/usr/bin/env bash
# Runs the library's time caches beside the Rust's TimeBoundCache on random lists of calls. The seed is printed; SEED and LISTS set it and how many.
set -eu
cd "$(dirname "$0")/../.."
. tools/setup.sh
have_rust "the time caches beside the original Rust's (tests/time_cache)" || exit 0
need_rust_packages
(cd tests/rust/seed && sha256sum -c --quiet SHA256SUMS)
tools/staticlib.sh exports
cd tests/time_cache
LIBRARY=$PWD/../../target/staticlib cargo build --release --offline -j 1 --quiet
../target/release/time_cache_beside "${SEED:-$(date +%s)}" "${LISTS:-2000}"
