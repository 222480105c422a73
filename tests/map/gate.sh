#!/usr/bin/env bash
# What docs/ARCHITECTURE.md names is there: crates, layers, functions, words of the contracts.
set -eu
cd "$(dirname "$0")/../.."
. tools/setup.sh
need_packages python3
python3 tests/map/check.py
