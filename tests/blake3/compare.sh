#!/usr/bin/env bash
# The identifier beside Debian's b3sum: tests/blake3/compare.sh. Each line that the program blake3_vectors writes, LENGTH HEX, is held to
# what b3sum writes of the same bytes (byte i is i % 251); with the word `stored`, each line of its stored output. It writes
# 'blake3: N passed, M failed', and its status is 0 where none failed. Needs root where b3sum is to be installed.
set -eu
root=$(cd "$(dirname "$0")/../.." && pwd)
work=$(mktemp -d)
trap 'rm -rf "$work"' EXIT

. "$root/tools/setup.sh"
need_packages b3sum
if [ "${1:-}" = stored ]; then
    cp "$root/crates/blake3_vectors/stdout" "$work/ours"
else
    (cd "$root/crates/blake3_vectors" && rt run </dev/null) >"$work/ours" 2>"$work/log" || { cat "$work/log"; echo "blake3: blake3_vectors is not proved"; exit 1; }
fi

# the lengths of BLAKE3's own test vectors, and then 0 to 2,100
vectors="0 1 2 3 4 5 6 7 8 63 64 65 127 128 129 1023 1024 1025 2048 2049 3072 3073 4096 4097 5120 5121 6144 6145 7168 7169 8192 8193 16384 31744 102400"
lengths="$vectors $(seq 0 2100)"

# 408 times the bytes 0 to 250
printf "$(awk 'BEGIN { for (i = 0; i < 251; i++) printf "\\%03o", i }')" >"$work/turn"
for i in $(seq 408); do cat "$work/turn"; done >"$work/bytes"

mkdir "$work/in"
for n in $vectors $(seq 0 2100); do
    [ -f "$work/in/$n" ] || head -c "$n" "$work/bytes" >"$work/in/$n"
done
(cd "$work/in" && b3sum $lengths) | awk '{ print $2, $1 }' >"$work/theirs"

# compare OURS THEIRS: the first lines that differ, and last how many agree and how many do not. A line that only one has does not agree
compare() {
    paste -d '|' "$1" "$2" | awk -F '|' '$1 == $2 { p++; next } { f++; if (f <= 5) print "ours " $1 ", b3sum " $2 } END { print p + 0, f + 0 }'
}

compare "$work/ours" "$work/theirs" >"$work/result"
sed '$d' "$work/result"
result=$(tail -n 1 "$work/result")
echo "blake3: ${result% *} passed, ${result#* } failed"
[ "$result" = "2136 0" ]

# and one changed digit must be seen
sed '40s/.$/x/' "$work/ours" >"$work/changed"
[ "$(compare "$work/changed" "$work/theirs" | tail -n 1)" = "2135 1" ] || { echo "blake3: a changed digit is not seen"; exit 1; }
