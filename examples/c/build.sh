#!/bin/sh
# Builds the examples into target/examples and runs one: first_broadcast, or the one that is named (three_panels, archive, commissioning, commissioning_sheet).
# PLUMTREE_LIB_DIR names the directory of libplumtree.a (default: target/staticlib, where `tools/staticlib.sh plumtree` writes it).
set -eu
cd "$(dirname "$0")/../.."
lib=${PLUMTREE_LIB_DIR:-target/staticlib}
[ -e "$lib/libplumtree.a" ] || { echo "no $lib/libplumtree.a: run tools/staticlib.sh plumtree" >&2; exit 1; }
mkdir -p target/examples
for example in first_broadcast three_panels archive commissioning commissioning_sheet; do
    ${CC:-cc} -std=c99 -O2 -g -Wall -Wextra -pedantic -Werror -I include -o "target/examples/$example" "examples/c/$example.c" "$lib/libplumtree.a"
done
exec "target/examples/${1:-first_broadcast}"
