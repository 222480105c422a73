#!/usr/bin/env bash
# Times each kind of event beside the Rust, in one run: at empty, quarter and full tables, for panelrun's limits and for the ceilings (docs/BENCHMARKS.md, "Event calls"); then messages
# rewritten ("Rewriting"), *alike* of two blocks ("Alike"), and states saved and returned to ("Named states").
# Words go on to the program: a kind's name, or a part of it. The library is the proved one; the Rust is built without overflow checks.
set -eu
cd "$(dirname "$0")/../.."
. tools/setup.sh
have_rust || exit 1
need_library
LIBRARY=$PLUMTREE_LIB_DIR tests/beside/build.sh fair
exec tests/target/fair/beside --bench "$@"
