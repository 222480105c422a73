#!/usr/bin/env bash
# long.sh [CALLS] [SEED]: runs the library beside the Rust on so many calls (100,000,000), in pieces of a million, a piece a seed: SEED (1) and those behind it.
# What a piece came to is kept, so that a second start goes on where the first was cut off. PROCESSORS=N runs so many pieces at once, by default one on each processor; PIECE=CALLS
# sets how many calls a piece has. Exit status 0 if nothing differs and every path of the table was taken, 1 if not, 2 if a word is not understood.
set -euo pipefail
cd "$(dirname "$0")/../.."
. tools/setup.sh
. tools/progress.sh

refuse() {
    echo "$1" >&2
    exit 2
}

number() { # NAME VALUE
    [[ $2 =~ ^[1-9][0-9]{0,14}$ ]] || refuse "$1 is a number from 1 on, of at most 15 digits, and not '$2'"
}

[ $# -le 2 ] || refuse "long.sh takes at most two words, how many calls and the first seed"
calls=${1:-100000000} first=${2:-1}
processors=${PROCESSORS:-$(nproc)} piece=${PIECE:-1000000}
number "the number of calls" "$calls"
number "the seed" "$first"
number PROCESSORS "$processors"
number PIECE "$piece"

rust_is_here || die "cargo of 1.82 or later is missing; to get it: $cargo_from"
need_library
LIBRARY=$PLUMTREE_LIB_DIR tests/beside/build.sh

# The results of this library and this program. They are run from a copy, which a later build does not change.
sum() { sha256sum "$1" | cut -c1-16; }
kept=tests/target/long/$(sum "$PLUMTREE_LIB_DIR/libplumtree.a")-$(sum tests/target/release/beside)
beside=$kept/beside
mkdir -p "$kept"
exec 9>"$kept/lock"
flock -n 9 || die "another run upon $kept is not at its end"
[ -e "$beside" ] || { cp tests/target/release/beside "$beside.new" && mv "$beside.new" "$beside"; }
rm -rf "$kept"/halves.*
halves=$kept/halves.$$
mkdir "$halves"

pieces=$(((calls + piece - 1) / piece))

# The calls of a piece: the last one has what is left.
calls_of() { # NUMBER
    if [ "$1" -lt $((pieces - 1)) ]; then echo "$piece"; else echo $((calls - piece * (pieces - 1))); fi
}

# The file that keeps what a piece came to: the sums, or, with .different behind its name, in what it differs.
file_of() { # NUMBER
    echo "$kept/seed-$((first + $1))-calls-$(calls_of "$1")"
}

# By the process that runs it: the number of a piece.
declare -A running=()
# Pieces that did not run to their end.
failed=0
sleeper=

stop() { # STATUS
    trap - INT TERM HUP EXIT
    [ -z "$sleeper" ] || kill "$sleeper" 2>/dev/null || true
    for pid in "${!running[@]}"; do kill "$pid" 2>/dev/null || true; done
    rm -rf "$halves"
    exit "$1"
}
trap 'stop 130' INT
trap 'stop 143' TERM
trap 'stop 129' HUP
trap 'stop $?' EXIT

begin() { # NUMBER
    local half=$halves/$1
    "$beside" --work "$half.list" --brief --no-shrink --seed $((first + $1)) --calls "$(calls_of "$1")" --sums "$half.sums" >"$half.said" 2>"$half.errors" 9>&- &
    running[$!]=$1
}

# A piece has ended: what it came to is moved to where it counts.
finish() { # NUMBER STATUS
    local half=$halves/$1 file seed list before
    file=$(file_of "$1")
    case $2 in
    0) mv "$half.sums" "$file" ;;
    1) grep -m 1 -A 20 '^DIFFERENT: ' "$half.said" >"$half.different" || true ;;
    # A panic, or a signal that a trap or a step out of memory ends in.
    101 | 132 | 133 | 134 | 135 | 136 | 139)
        read -r _ _ seed _ list before <"$half.list"
        echo "DIFFERENT: seed $seed list $list after $before calls and some of that list: ended with status $2" >"$half.different"
        tail -n 20 "$half.errors" >>"$half.different"
        ;;
    esac
    if [ -s "$half.different" ]; then
        mv "$half.different" "$file.different"
        show "$(head -n 1 "$file.different")"
    elif [ ! -e "$file" ]; then
        failed=$((failed + 1))
        show "the piece of seed $((first + $1)) did not run to its end: status $2"
        tail -n 5 "$half.errors"
    fi
    rm -f "$half".*
}

# Calls that running pieces have made.
under_way() {
    local n all=0
    for n in "${running[@]}"; do
        read -r _ _ _ _ _ n 2>/dev/null <"$halves/$n.list" || n=0
        all=$((all + ${n:-0}))
    done
    echo "$all"
}

# How far the run is, and about how long it goes on.
how_far() {
    local made left told
    made=$((made_here + $(under_way)))
    left=$((calls - calls_kept - made))
    told="[$ended of $pieces pieces, $((calls_kept + made)) calls, $(so_far)]"
    if [ "$made" -gt 0 ] && [ "$left" -gt 0 ]; then
        echo "$told about $(clock $(((SECONDS - began) * left / made))) left"
    else
        echo "$told"
    fi
}

# Pieces that are kept, and those that are still to be run.
todo=()
ended=0 calls_kept=0
for ((n = 0; n < pieces; n++)); do
    file=$(file_of "$n")
    if [ -e "$file" ] || [ -e "$file.different" ]; then
        ended=$((ended + 1)) calls_kept=$((calls_kept + $(calls_of "$n")))
    else
        todo+=("$n")
    fi
done
show "$kept: $ended of $pieces pieces are kept; on $processors processors"

made_here=0 began=$SECONDS
sleep "$HEARTBEAT_SECONDS" 9>&- &
sleeper=$!
while [ ${#todo[@]} -gt 0 ] || [ ${#running[@]} -gt 0 ]; do
    while [ ${#todo[@]} -gt 0 ] && [ ${#running[@]} -lt "$processors" ]; do
        begin "${todo[0]}"
        todo=("${todo[@]:1}")
    done
    status=0
    wait -n -p process || status=$?
    if [ "$process" = "$sleeper" ]; then
        show "$(how_far)"
        sleep "$HEARTBEAT_SECONDS" 9>&- &
        sleeper=$!
        continue
    fi
    n=${running[$process]}
    unset "running[$process]"
    made_here=$((made_here + $(calls_of "$n"))) ended=$((ended + 1))
    finish "$n" "$status"
done

# The sums over all pieces: lines of a kind, a number and a name.
sums=() different=()
for ((n = 0; n < pieces; n++)); do
    file=$(file_of "$n")
    if [ -e "$file.different" ]; then
        different+=("$n")
    elif [ -e "$file" ]; then
        sums+=("$file")
    fi
done
table=$kept/sums-seed-$first-calls-$calls
if [ ${#sums[@]} -gt 0 ]; then
    awk -F '\t' -v OFS='\t' '
        { key = $1 OFS $3; if (!(key in n)) order[++all] = key; n[key] += $2 }
        END { for (i = 1; i <= all; i++) { split(order[i], w, OFS); printf "%s\t%.0f\t%s\n", w[1], n[order[i]], w[2] } }' "${sums[@]}" >"$halves/table"
    mv "$halves/table" "$table"
else
    : >"$table"
fi

of() { # KIND NAME
    awk -F '\t' -v kind="$1" -v name="$2" '$1 == kind && $3 == name { n = $2 } END { printf "%.0f\n", n }' "$table"
}

total() { of total "$1"; }

never=$(awk -F '\t' '$1 == "path" && $2 == 0' "$table" | wc -l)
paths=$(awk -F '\t' '$1 == "path"' "$table" | wc -l)
echo "paths hit: $((paths - never)) of $paths"
awk -F '\t' '$1 == "path" && $2 == 0 { print "       never  " $3 }' "$table"
echo "second panels: $(total "second panels alike") alike went through $(total "calls of second panels alike") calls, 0 different"
awk -F '\t' '$1 == "apart" { print $3 }' "$table" | while IFS= read -r list; do
    echo "    $list in another order: $(of apart "$list"), told apart by chosen calls $(of "apart by chosen calls" "$list"), by those that followed $(of "apart by those that followed" "$list")"
done
echo "$(total "calls in lists without kind 5") calls in $(total "lists without kind 5") lists without kind 5, $(total "calls in lists with kind 5") in $(total "lists with kind 5") with it ($(total "events of kind 5 accepted") of kind 5 accepted); $(of path "answer 23") answered 23"
echo "the whole table: $table"
for n in "${different[@]}"; do
    head -n 1 "$(file_of "$n").different"
    list=$(sed -nE '1s/^DIFFERENT: seed [0-9]+ list ([0-9]+) .*/\1/p' "$(file_of "$n").different")
    echo "to make its list shorter: $beside --seed $((first + n)) --from $list --calls 1"
done
[ "$failed" -eq 0 ] || echo "pieces that did not run to their end: $failed"
told="${#different[@]} different"
for n in "${different[@]}"; do told+=", the piece of seed $((first + n))"; done
seeds="seed $first"
[ "$pieces" -eq 1 ] || seeds="seeds $first to $((first + pieces - 1))"
echo "$seeds: $(total calls) calls and $(total rewrites) rewrites, $(total "savings and returns") savings and returns, in $(total lists) lists, $told, $(so_far)"
[ ${#different[@]} -eq 0 ] && [ "$failed" -eq 0 ] && [ "$never" -eq 0 ] && [ "$paths" -gt 0 ]
