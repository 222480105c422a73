#!/usr/bin/env bash
# The definitions that have to be believed are those that tools/believe.py tells: none is left out, and README has their number.
set -eu
cd "$(dirname "$0")/../.."
. tools/setup.sh
need_rt
need_packages python3
python3 tests/believe/test.py
