#!/usr/bin/env bash
# The stored identifiers beside Debian's b3sum, and a look at the compiled code. That the program writes the stored ones is for `rt ci`.
set -eu
here=$(dirname "$0")
cd "$here/../.."
. tools/setup.sh
tests/blake3/compare.sh stored
tests/blake3/look.sh
