#!/usr/bin/env bash
# Writes a crate's static library: tools/staticlib.sh NAME. It is target/staticlib/libNAME.a, for x86-64 Linux. It proves what is not proved yet, and does nothing where the
# library is that of these sources.
# rt makes no archive of a crate that others use. So the compiler makes it, which checks the crate once more, over the libraries below: those that `rt lib` makes, or, where
# the sources are those of the last `rt ci` that ./test ran, the ones of that run.
set -euo pipefail
cd "$(dirname "$0")/.."
. tools/setup.sh
. tools/progress.sh
[ $# -eq 1 ] || die "usage: tools/staticlib.sh NAME"
name=$1
mapfile -t crates < <(reached crates.txt "$name")
[ ${#crates[@]} -gt 0 ] || die "crates.txt has no crate $name"
need_rt
archive=$PWD/target/staticlib/lib$name.a
sum=$(sources_sum "${crates[@]}")
if [ -e "$archive" ] && [ "$(cat "$archive.sum" 2>/dev/null)" = "$sum" ]; then exit; fi

below=("${crates[@]::${#crates[@]}-1}")
proved=1
for c in "${below[@]}"; do [ -d "crates/$c/out/rlib/$c.rlib" ] || proved=; done
as_rt_ci_passed || proved=
cd "crates/$name"
if [ -z "$proved" ]; then rt lib 2>&1 | building || die "$name is not proved"; fi

work=$(mktemp -d)
trap 'rm -rf "$work"' EXIT
kit=$(dirname "$(rt doc)")
words=(--crate-name "$name" src/lib.rt --crate-type staticlib --cpu=x86-64 --links "$name=" --jobs 2 -o "$work/lib$name.a")
words+=(--antt-project "$kit/rattle/logic/antt-project.json" --logic-built "$kit/logic_built" --toolchain "$kit/toolchain")
words+=(--extern "std=$kit/rlibs/std.rlib" -L "dependency=$kit/rlibs")
for c in "${below[@]}"; do
    words+=(-L "dependency=../$c/out/rlib")
    if grep -qE "^$name( +staticlib)? *:([^#]* )?$c( |\$)" ../../crates.txt; then words+=(--extern "$c=../$c/out/rlib/$c.rlib"); fi
done
# what was kept of this crate's own proof
if [ -d out/incremental ]; then
    cp -R out/incremental "$work"
    words+=(--incremental "$work/incremental")
fi
{ "$kit/bin/rattle" build "${words[@]}" >"$work/said" 2>&1; } | waiting "the compiler, at lib$name.a," || { cat "$work/said"; die "lib$name.a is not built"; }
mkdir -p "${archive%/*}"
mv "$work/lib$name.a" "$archive"
echo "$sum" >"$archive.sum"
