#!/bin/sh
# What the compiler made of the moves of rows and the loads of words, function by function: bench/rows/look.sh. Needs objdump and python3.
set -eu
here=$(cd "$(dirname "$0")" && pwd)
root=$(cd "$here/../.." && pwd)
"$root/tools/staticlib.sh" exports >/dev/null
lib=$root/target/staticlib/libexports.a
left=$(nm "$lib" | grep -cE ' [tT] .*(load_id|load_high|compare|same|move_up|move_down|insert_row|remove_rows)' || true)
echo "functions of rows left as calls: $left"
[ "$left" -eq 0 ]
objdump -dr --no-show-raw-insn "$lib" | python3 "$here/look.py"
