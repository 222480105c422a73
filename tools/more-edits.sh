#!/usr/bin/env bash
# Tries the edits of crates/NAME/more-edits, which must be refused as those of crates/NAME/must-fail are; the gate leaves them out for time. Usage:
# tools/more-edits.sh [--together] [NAME ...], all crates that have such edits if none is named.
# Each crate is checked as it stands first, since any edit of a crate that is not proved is refused; then each edit costs one check of its crate. With --together edits of
# different functions of a crate are tried in one check: an edit of a function's body leaves every contract as it is, and a check tells the errors of every function. An edit
# is then refused where its own function's proof has an error, and is tried alone where it has none. The first error of each edit is printed, and the command fails if an
# edit is not refused, or cannot be applied or read.
set -eu
cd "$(dirname "$0")/.."
. tools/setup.sh
need_rt
together=
if [ "${1:-}" = --together ]; then
    need_packages python3
    together=1
    shift
fi
copy=$(mktemp -d)
trap 'rm -rf "$copy"' EXIT
git clone -q . "$copy/here"
cd "$copy/here"
[ $# -gt 0 ] || set -- $(ls -d crates/*/more-edits | cut -d/ -f2)
if [ -n "$together" ]; then
    python3 tools/together.py "$@"
    exit
fi
failed=
for n in "$@"; do
    echo "== $n"
    (cd "crates/$n" && rt check >"$copy/said" 2>&1) || { tail -n 20 "$copy/said"; die "$n is not proved as it stands, so its edits are not tried"; }
    rm -rf "crates/$n/must-fail"
    mv "crates/$n/more-edits" "crates/$n/must-fail"
    rt must-fail "$n" || failed="$failed $n"
done
[ -z "$failed" ] || die "not refused, or bad: edits of$failed"
