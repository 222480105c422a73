#!/bin/sh
# Times of the time caches, and a look at what the compiler made of the word loads: bench/time_cache/run.sh. Needs rustc.
set -eu
here=$(cd "$(dirname "$0")" && pwd)
root=$(cd "$here/../.." && pwd)
"$root/tools/staticlib.sh" exports >/dev/null
lib=$root/target/staticlib/libexports.a
echo "functions left as calls: $(nm "$lib" | grep -ci ' t .*load' || true) loads, $(nm "$lib" | grep -ci ' t .*\(compare\|same\)' || true) comparisons"
mkdir -p "$root/target/bench"
rustc -O -L "$root/target/staticlib" -o "$root/target/bench/time_cache" "$here/main.rs"
"$root/target/bench/time_cache"
