#!/usr/bin/env bash
# Each quotation in the crates, in C and Rust and in the documents stands word for word in what it quotes; and a wrong one is found.
set -eu
cd "$(dirname "$0")/../.."
. tools/setup.sh
need_packages python3
wrong=$(mktemp --suffix=.antt)
trap 'rm -f "$wrong"' EXIT
printf -- '-- "Is M, `max_message_size`, from 510\n-- to 4,095?"\n' >"$wrong"
if python3 tests/quotations/check.py "$wrong" >/dev/null 2>&1; then die "a wrong quotation is not found"; fi
python3 tests/quotations/check.py
