#!/usr/bin/env bash
# The binding for Rust, from a copy elsewhere: what it does without the archive, the reader on four runs of panelrun, its tests and examples, its
# documentation's examples, and its tests under valgrind.
# PLUMTREE_LIB_DIR can name the directory of another libplumtree.a than the proved one.
set -euo pipefail
cd "$(dirname "$0")/../.."
. tools/setup.sh
have_rust "the binding for Rust (tests/bindings)" || exit 0
need_packages gcc libc6-dev valgrind
need_library
export CARGO_TARGET_DIR="$PWD/target/bindings"
out=$CARGO_TARGET_DIR/gate
mkdir -p "$out"
root=$PWD
copy=$(mktemp -d)
trap 'rm -rf "$copy"' EXIT
cd bindings/rust
cp -R Cargo.toml build.rs src tests examples "$copy"
export PLUMTREE_EVENTS=$root/crates/postcard_vectors/stdin
cd "$copy"

# `unsafe` stands in one module.
[ "$(grep -rl 'unsafe {' src)" = src/ffi.rs ] || die "unsafe outside src/ffi.rs"

export RUSTFLAGS="-D warnings"

# Without the archive all of it is checked, the library is built, and the reader runs, on the specification's example and on longer runs. A program that
# calls the library is not linked, and the message says what is missing.
none=$out/none
without() { PLUMTREE_LIB_DIR=$none cargo "$1" --offline -q --target-dir "$out/without" "${@:2}"; }
without check --all-targets
without build --lib
for run in worked forgotten quiet longer; do
    without run --example read -- tests/runs/$run.input tests/runs/$run.output | diff tests/runs/$run.expected -
done
if without build --example swarm >"$out/without.log" 2>&1; then die "linked without the archive"; fi
grep -q "there is no $none/libplumtree.a: run \`tools/staticlib.sh plumtree\`, or set PLUMTREE_LIB_DIR to" "$out/without.log" ||
    { cat "$out/without.log"; die "the linker's message does not say what is missing"; }

cargo test --offline -q >"$out/test.log" 2>&1 || { cat "$out/test.log"; die "cargo test failed"; }
grep -h '^test result' "$out/test.log"
if have_clippy "what clippy says of the binding for Rust (tests/bindings)"; then
    cargo clippy --offline -q --all-targets -- -D warnings
fi

# The questions again, under valgrind.
cargo test --offline -q --test questions --no-run --message-format=json 2>/dev/null | sed -n 's/.*"executable":"\([^"]*questions[^"]*\)".*/\1/p' >"$out/questions"
valgrind -q --error-exitcode=9 "$(tail -n 1 "$out/questions")" --test-threads=1 >"$out/valgrind.log" 2>&1 || { cat "$out/valgrind.log"; die "not clean under valgrind"; }
grep '^test result' "$out/valgrind.log"
echo "tests/bindings: passed"
