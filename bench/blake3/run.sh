#!/bin/sh
# Times of the identifier beside Debian's blake3 crate: bench/blake3/run.sh [SECONDS for each size]. Needs root only where the package is
# to be installed, and no network after that.
set -eu
here=$(cd "$(dirname "$0")" && pwd)
root=$(cd "$here/../.." && pwd)
if ! dpkg-query -W -f='${Status}\n' librust-blake3-dev 2>/dev/null | grep -q 'install ok installed'; then
    apt-get update >/dev/null
    apt-get install -y --no-install-recommends librust-blake3-dev >/dev/null
fi
"$root/tools/staticlib.sh" exports >/dev/null
export CARGO_TARGET_DIR="$root/target/bench/blake3"
export RUSTFLAGS="-L native=$root/target/staticlib -A warnings"
mkdir -p "$root/target/bench"
rm -rf "$root/target/bench/blake3_sse2"
cp -r /usr/share/cargo/registry/blake3-1.3.1 "$root/target/bench/blake3_sse2"
sed -i '0,/^version = "1.3.1"$/s//version = "1.3.1+sse2"/' "$root/target/bench/blake3_sse2/Cargo.toml"
cd "$here"
cargo build --release --offline -q --config 'source.crates-io.replace-with="debian"' \
    --config 'source.debian.directory="/usr/share/cargo/registry"'
"$CARGO_TARGET_DIR/release/bench_blake3" "$@"
