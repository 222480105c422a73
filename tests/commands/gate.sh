#!/usr/bin/env bash
# The commands ./run, ./test and .ci/run on a repository of four crates, with stand-ins for rt, cargo, python3 and Debian's commands: the progress they show, what is shown of
# a crate that is not proved, what is said where something is missing, is left out, differs or is stopped, and the status and the last line they end with.
set -euo pipefail
cd "$(dirname "$0")/../.."
. tools/setup.sh
work=$(mktemp -d)
trap 'rm -rf "$work"' EXIT
repo=$work/repo
mkdir -p "$work"/{bin,base,none,no_cargo} "$repo/tests/own" "$repo"/crates/{lists/src,panelrun/{src,must-fail},panelrun_show/src,apart/src}
cp -R run test tools .ci "$repo"
printf '\0\2\3\2' >"$repo/crates/panelrun/stdin"
printf 'panelrun: lists\npanelrun_show: lists\nlists: # of nothing\napart staticlib: lists\n' >"$repo/crates.txt"
touch "$repo/crates/panelrun/must-fail/one.edit"
readme() {
    # shellcheck disable=SC2016
    printf 'Proved with `%s`, which is what `rt version` prints.\n' "$1" >"$repo/README.md"
}
readme "kit-1 logic aa"

# Each stand-in finds its files by its own place.
# NAME: a stand-in of that name, standard input.
stands_in() {
    cat >"$work/bin/$1"
    chmod +x "$work/bin/$1"
}
# The stand-in for rt says what the file says has, and ends with the status in the file status; `rt run` says it as errors, and the program that it runs writes what it reads,
# and with arguments their number. A line 'sleep N' of the file is done, one 'front TEXT' is said without its end, and 'for ever' does not end.
stands_in rt <<'STAND_IN'
#!/usr/bin/env bash
work=$(dirname "$0")/..
say() {
    while IFS= read -r line; do
        case $line in
        "sleep "*) $line ;;
        "for ever")
            echo $$ >"$work/pid"
            exec sleep 30
            ;;
        "front "*) printf %s "${line#front }" ;;
        *) printf '%s\n' "$line" ;;
        esac
    done <"$work/says"
}
case "$*" in
run)
    say >&2
    cat
    ;;
"run -- "*)
    say >&2
    echo "text from $(($# - 2)) files"
    ;;
ci)
    [ -e crates.txt ] || exit 9
    say
    ;;
version)
    cat "$work/version"
    exit
    ;;
*) exit 9 ;;
esac
exit "$(cat "$work/status")"
STAND_IN
# cargo is there where the file cargo has its version, clippy where there is a file clippy.
stands_in cargo <<'STAND_IN'
#!/bin/sh
work=$(dirname "$0")/..
[ -e "$work/cargo" ] || exit 127
case "$*" in
--version) echo "cargo $(cat "$work/cargo") (a stand-in)" ;;
"clippy --version") [ -e "$work/clippy" ] ;;
*) exit 9 ;;
esac
STAND_IN
# Debian's packages are there but those that the file lacking names.
stands_in dpkg-query <<'STAND_IN'
#!/bin/sh
for name; do :; done
grep -qxF -e "$name" "$(dirname "$0")/../lacking" || echo 'install ok installed'
STAND_IN
# apt-get can do what the file apt has of 'lists' (fetch them) and 'installs'.
cat >"$work/none/apt-get" <<'STAND_IN'
#!/bin/sh
work=$(dirname "$0")/..
case $1 in
update) grep -q lists "$work/apt" ;;
install)
    if ! grep -q installs "$work/apt"; then
        echo "E: it does not" >&2
        exit 100
    fi
    for name; do
        grep -vxF -e "$name" "$work/lacking" >"$work/left"
        cp "$work/left" "$work/lacking"
        case $name in
        cargo-web) cp "$work/cargo-web" "$work/cargo" ;;
        rust-web-clippy) touch "$work/clippy" ;;
        python3) cp "$work/none/python3" "$work/bin/python3" ;;
        esac
    done
    ;;
*) exit 9 ;;
esac
STAND_IN
printf '#!/bin/sh\nexit 9\n' >"$work/none/python3"
printf '#!/bin/sh\nexit 1\n' >"$work/no_cargo/cargo"
chmod +x "$work"/none/* "$work/no_cargo/cargo"

# Nothing is missing, and the user is root.
all_is_there() {
    cp "$work/none/apt-get" "$work/none/python3" "$work/bin"
    printf '#!/bin/sh\necho 0\n' | stands_in id
    printf '#!/bin/sh\necho 4\n' | stands_in nproc
    echo "lists installs" >"$work/apt"
    echo 1.95.0 >"$work/cargo"
    echo 1.96.0 >"$work/cargo-web"
    echo "kit-1 logic aa" >"$work/version"
    touch "$work/clippy"
    : >"$work/lacking"
}
lacks() { printf '%s\n' "$@" >>"$work/lacking"; }
# Beside the stand-ins no other command is found than these.
for name in awk basename bash cat chmod cp cut date dirname echo env find grep mkdir mkfifo mktemp od rm sed sh sha256sum sleep sort tail tee touch tr wc xargs; do
    ln -s "$(type -P "$name")" "$work/base/$name"
done

# COMMAND ARGUMENT ..: runs it with the stand-ins; its output, the times set to 0m00s, is in the file out, and its status in `ended`.
ended=
runs() {
    ended=0
    env -i PATH="$work/bin:$work/base" HEARTBEAT_SECONDS="${beat:-30}" bash "$repo/$1" "${@:2}" >"$work/out" 2>&1 </dev/null || ended=$?
    sed -i -E 's/[0-9]+m[0-9]{2}s/0m00s/g' "$work/out"
}
# STATUS COMMAND ARGUMENT ..: it ends with that status and prints standard input.
shows() {
    runs "${@:2}"
    diff - "$work/out" || die "$2 shows something else"
    [ "$ended" -eq "$1" ] || die "$2 ends with $ended and not with $1"
}
# The same, of its last lines: as many as standard input has.
ends() {
    local wanted
    wanted=$(cat)
    runs "${@:2}"
    diff <(echo "$wanted") <(tail -n "$(wc -l <<<"$wanted")" "$work/out") || die "$2 ends in something else"
    [ "$ended" -eq "$1" ] || die "$2 ends with $ended and not with $1"
}
# STATUS: how the stand-in ends after what it says, standard input.
says() {
    cat >"$work/says"
    echo "$1" >"$work/status"
}
all_is_there

# ./run
run_begins='proving 2 crates, and one that shows bytes as text: the first time about 15 minutes on 4 processors, later seconds; what is unchanged since it was last proved is not proved again'
run_ends='input   00 02 03 02
output  00 02 03 02
text from 2 files'
says 0 <<'END'
rt: lists: begins with what a check kept in /elsewhere/crates/lists
rt: chose --jobs 2 for lists
fn lists::a: proved
crate lists: modules loaded=0 checked=40
logic=proved functions=1
rt: chose --jobs 2 for panelrun
fn panelrun::main: proved
library lists: modules loaded=0 checked=0
crate panelrun: modules loaded=20 checked=31
logic=proved functions=1
linked target=x86_64-unknown-linux-gnu files=out/panelrun.o
rt: running out/panelrun; to give it other input, run that file yourself
END
shows 0 run <<END
$run_begins
[1, 0m00s] lists proved
[2, 0m00s] panelrun proved
[1, 0m00s] lists proved
[2, 0m00s] panelrun proved
$run_ends
END
says 1 <<'END'
rt: chose --jobs 2 for lists
proofs/A.antt:3:1: error: it does not hold
fn lists::a: not proved
crate lists: modules loaded=0 checked=40
logic=not-proved
rt: the library lists did not build, so nothing above it was checked
END
shows 1 run <<END
$run_begins
proofs/A.antt:3:1: error: it does not hold
fn lists::a: not proved
crate lists: modules loaded=0 checked=40
logic=not-proved
rt: the library lists did not build, so nothing above it was checked
panelrun is not proved, or failed
END
shows 1 run --quick <<'END'
usage: ./run, with no arguments: proves, builds and runs panelrun on a first example
END

# ./test and .ci/run
proved='rt: lists is kept: an earlier run on this machine proved the same files over the same libraries
== panelrun
fn panelrun::b: proved
rt: note: of panelrun
logic=proved functions=1
rt: panelrun proved
rt: panelrun: trying its must-fail edits (1)
== panelrun: its tests
logic=proved tests=1 functions=1
rt: panelrun: its tests are proved
== apart
fn apart::c: proved
rt: apart proved'
edit='rt: must-fail panelrun/one.edit: refused, as it must be: proofs/B.antt:1:1: error'
ran="rt: panelrun ran, and wrote what its file stdout has"
last='4 passed, 0 failed'
test_begins='== rt ci: 4 crates, then 1 edits that must be refused, then the programs: the first time about 30 minutes on 4 processors, later about ten; what was proved is not proved again'
begins="$test_begins
[2 of 4, 0m00s] panelrun proved
[1 of 1 edits, 0m00s] panelrun: trying its must-fail edits (1)
[2 of 4, 0m00s] panelrun: its tests are proved
[3 of 4, 0m00s] apart proved"
# The stand-in passes.
passes() { printf '%s\n' "$proved" "$edit" "$ran" "$last" | says 0; }
# LINE ..: the repository's only comparison.
own() { printf '%s\n' ". tools/setup.sh" "$@" >"$repo/tests/own/gate.sh"; }
passes
own 'echo "one is as promised"'
for command in test .ci/run; do
    shows 0 $command <<END
$begins
$ran
$last
== [1 of 1, 0m00s] tests/own/gate.sh
one is as promised
$last
END
done

# A comparison that fails.
own 'exit 3'
for command in test .ci/run; do
    shows 1 $command <<END
$begins
$ran
$last
== [1 of 1, 0m00s] tests/own/gate.sh
FAILED: tests/own/gate.sh
END
done

# An edit that shows nothing, one that is not refused, and a crate that is not proved.
bad='rt: must-fail panelrun/one.edit: BAD EDIT: its text stands nowhere'
printf '%s\n' "$proved" "$bad" "$ran" '3 passed, 0 failed' | says 0
shows 1 test <<END
$begins
$bad
$ran
3 passed, 0 failed
FAILED: an edit shows nothing
END
survived='rt: must-fail panelrun/one.edit: NOT REFUSED: the crate is still proved with this edit'
printf '%s\n' "$proved" "$survived" "$ran" 'rt: FAILED: panelrun/one.edit' '3 passed, 1 failed' | says 1
shows 1 test <<END
$begins
$survived
$ran
rt: FAILED: panelrun/one.edit
3 passed, 1 failed
END
says 1 <<'END'
== lists
proofs/A.antt:3:1: error: it does not hold
logic=not-proved
rt: lists NOT PROVED
rt: panelrun NOT PROVED: its library lists failed
rt: apart NOT PROVED: its library lists failed
rt: FAILED: lists panelrun apart
0 passed, 3 failed
END
for command in test .ci/run; do
    shows 1 $command <<END
$test_begins
proofs/A.antt:3:1: error: it does not hold
logic=not-proved
[1 of 4, 0m00s] lists NOT PROVED
[2 of 4, 0m00s] panelrun NOT PROVED: its library lists failed
[3 of 4, 0m00s] apart NOT PROVED: its library lists failed
rt: FAILED: lists panelrun apart
0 passed, 3 failed
END
done

# Without cargo, with one that is too old or without clippy parts are left out: told above the last line.
passes
own 'have_rust "one" || true' 'have_clippy "two" || true'
without_cargo='left out: one, since cargo of 1.82 or later is missing; to get it: apt-get install cargo-web rustc-web (Debian 12), or rustup'
without_clippy="left out: two, since clippy is missing; to get it: apt-get install rust-web-clippy (with Debian 12's cargo-web), or rustup component add clippy"
rm "$work/clippy"
ends 0 test <<END
== [1 of 1, 0m00s] tests/own/gate.sh
$without_clippy
$without_clippy
$last
END
for version in none 1.81.0; do
    rm -f "$work/cargo" "$work/clippy"
    [ $version = none ] || echo $version >"$work/cargo"
    ends 0 test <<END
== [1 of 1, 0m00s] tests/own/gate.sh
$without_cargo
$without_clippy
$without_cargo
$without_clippy
$last
END
done
# .ci/run installs them, and fails where it cannot, before anything is proved.
lacks cargo-web rustc-web rust-web-clippy
rm "$work/cargo"
shows 0 .ci/run <<END
installing cargo-web rustc-web
installing rust-web-clippy
$begins
$ran
$last
== [1 of 1, 0m00s] tests/own/gate.sh
$last
END
lacks cargo-web rustc-web
rm "$work/cargo"
echo 1.63.0 >"$work/cargo-web"
shows 1 .ci/run <<'END'
installing cargo-web rustc-web
cargo of 1.82 or later is missing; to get it: apt-get install cargo-web rustc-web (Debian 12), or rustup
END
lacks cargo-web rustc-web
rm "$work/cargo"
echo lists >"$work/apt"
shows 1 .ci/run <<'END'
installing cargo-web rustc-web
E: it does not
these Debian packages are missing, and apt-get could not install them: cargo-web rustc-web
END
# (Debian's clippy is not that of another cargo)
all_is_there
lacks cargo-web rustc-web rust-web-clippy
rm "$work/clippy"
shows 1 .ci/run <<'END'
clippy is missing; to get it: apt-get install rust-web-clippy (with Debian 12's cargo-web), or rustup component add clippy
END
# Nor is anything else left out there.
all_is_there
own 'left_out "three" "its tool" "a shop"'
ends 0 test <<END
left out: three, since its tool is missing; to get it: a shop
$last
END
for arguments in "test --all" .ci/run; do
    # shellcheck disable=SC2086
    ends 1 $arguments <<'END'
three cannot be left out: its tool is missing; to get it: a shop
FAILED: tests/own/gate.sh
END
done
usage=$(bash test --help)
[[ $usage == "usage: ./test [--all]"*"With --all nothing is left out"* ]] || die "./test --help does not say what --all is"
shows 2 test --everything <<<"$usage"

# Each test that needs cargo, or can end early, says so where there is no cargo, and fails in .ci/run.
for t in $(grep -lE 'cargo|exit 0|have_|left_out' tests/*/gate.sh | grep -v tests/commands/); do
    : >"$work/notes"
    PATH="$work/no_cargo:$PATH" NOTES=$work/notes NOTHING_LEFT_OUT='' bash "$t" >"$work/out" 2>&1 || die "$t fails without cargo"
    grep -q "^left out: .*(${t%/gate.sh}), since cargo of 1.82 or later is missing" "$work/notes" || die "$t does not say what it leaves out"
    if PATH="$work/no_cargo:$PATH" NOTES=$work/notes NOTHING_LEFT_OUT=1 bash "$t" >"$work/out" 2>&1; then die "$t is left out in .ci/run"; fi
done
# What a test needs of Debian ./test asks for before it proves anything.
asked=$(
    need_packages() { echo "$@"; }
    need_test_packages
    need_rust_packages
)
for name in $(sed -n 's/^ *need_packages \([a-z].*\)/\1/p' tests/*/*.sh | grep -v echo); do
    [[ " ${asked//$'\n'/ } " == *" $name "* ]] || die "./test does not ask for $name before it begins"
done

# A package that is missing, and why it is not installed.
own 'echo "one is as promised"'
lacks valgrind g++
echo lists >"$work/apt"
shows 1 test <<'END'
installing g++ valgrind
E: it does not
these Debian packages are missing, and apt-get could not install them: g++ valgrind
END
: >"$work/apt"
shows 1 test <<'END'
installing g++ valgrind
E: it does not
these Debian packages are missing, and apt-get could not fetch Debian's lists (is there a network?): g++ valgrind
END
printf '#!/bin/sh\necho 1000\n' | stands_in id
shows 1 test <<'END'
these Debian packages are missing, and only root can install them: sudo apt-get install --no-install-recommends g++ valgrind
END
rm "$work/bin/apt-get"
shows 1 test <<'END'
these Debian packages are missing, and there is no apt-get to install them: g++ valgrind
END
# A list that cannot be fetched is no hindrance by itself.
all_is_there
lacks valgrind
echo installs >"$work/apt"
shows 0 test <<END
installing valgrind
$begins
$ran
$last
== [1 of 1, 0m00s] tests/own/gate.sh
one is as promised
$last
END
# The packages of the original Rust are asked for where there is a cargo.
lacks librust-hex-dev
: >"$work/apt"
shows 1 test <<'END'
installing librust-hex-dev
E: it does not
these Debian packages are missing, and apt-get could not fetch Debian's lists (is there a network?): librust-hex-dev
END
rm "$work/cargo"
ends 0 test <<<"$last"

# No python3, no kit, and a kit that does not run.
all_is_there
lacks python3
rm "$work/bin/python3"
: >"$work/apt"
for command in run test .ci/run; do
    shows 1 $command <<'END'
python3, in which the kit's command rt is written, is not on this machine
installing python3
E: it does not
these Debian packages are missing, and apt-get could not fetch Debian's lists (is there a network?): python3
END
done
echo "lists installs" >"$work/apt"
ends 0 test <<<"$last"
all_is_there
rm "$work/bin/python3"
for command in run test .ci/run; do
    shows 1 $command <<'END'
python3, in which the kit's command rt is written, is not on this machine
python3 was not found, though Debian's package is installed
END
done
all_is_there
rm "$work/version"
for command in run test .ci/run; do
    ends 1 $command <<<"the Rattle kit does not run: rt version failed"
done
all_is_there
mv "$work/bin/rt" "$work/none"
for command in run test .ci/run; do
    shows 1 $command <<<"the Rattle kit is not on this machine: its command rt was not found"
done
mv "$work/none/rt" "$work/bin"

# Another kit than README.md names is told at the beginning and above the last line, and the commands go on.
kit_differs() { # IS SAID
    local command
    says 0 </dev/null
    shows 0 run <<END
$1
$run_begins
$run_ends
END
    passes
    for command in test .ci/run; do
        shows 0 $command <<END
$1
$begins
$ran
$last
== [1 of 1, 0m00s] tests/own/gate.sh
one is as promised
$1
$last
END
    done
}
differs="note: the kit here is not the one that README.md names:"
echo "kit-2 logic aa" >"$work/version"
kit_differs "$differs its name is kit-2 and not kit-1, its logic is the same; every proof is by the kit that is here"
echo "kit-1 logic bb" >"$work/version"
kit_differs "$differs its name is the same, its logic is bb and not aa; every proof is by the kit that is here"
echo "kit-2 logic bb" >"$work/version"
kit_differs "$differs its name is kit-2 and not kit-1, its logic is bb and not aa; every proof is by the kit that is here"
echo "Proved." >"$repo/README.md"
kit_differs "note: README.md does not say with which kit it was proved; this one is kit-2 logic bb"
readme "kit-2 logic bb"
# README.md here has the line.
grep -qE '^Proved with `[^ ]+ logic [0-9a-f]+`, which is what `rt version` prints\.$' README.md || die "README.md does not name the kit as the commands read it"

# Where nothing is printed for HEARTBEAT_SECONDS a line says what is waited for; nothing else of the output changes, be it cut in the middle of a line.
beat=1
# COMMAND LINE ..: it passes, these lines are among those that say what is waited for, and the others are standard input.
beats() {
    local line
    runs "$1"
    [ "$ended" -eq 0 ] || die "$1 ends with $ended and not with 0"
    diff - <(grep -v ' still ' "$work/out") || die "$1 loses or reorders lines"
    for line in "${@:2}"; do grep -qxF -e "$line" "$work/out" || die "$1 does not say: $line"; done
}
says 0 <<'END'
rt: chose --jobs 2 for lists
fn lists::a: proved
sleep 0.5
front fn lists::b: pro
sleep 0.5
ved
sleep 0.5
crate lists: modules loaded=0 checked=40
logic=proved functions=2
rt: chose --jobs 2 for panelrun
crate panelrun: modules loaded=0 checked=40
front logic=pro
sleep 1.3
ved functions=1
END
beats run "[0, 0m00s] lists is still being proved, for 0m00s" "[1, 0m00s] panelrun is still being proved, for 0m00s" <<END
$run_begins
[1, 0m00s] lists proved
[2, 0m00s] panelrun proved
[1, 0m00s] lists proved
[2, 0m00s] panelrun proved
$run_ends
END
own 'echo "one is as promised"' 'printf two' 'sleep 1.3' 'echo " too"'
says 0 <<END
sleep 1.3
rt: lists is kept: an earlier run on this machine proved the same files over the same libraries
front == panel
sleep 1.3
run
rt: panelrun proved
sleep 1.3
rt: panelrun: trying its must-fail edits (1)
== panelrun_show
rt: panelrun_show proved
== apart
rt: apart proved
sleep 1.3
$edit
sleep 1.3
$ran
$last
END
beats test "[0 of 4, 0m00s] still proving lists, 0m00s without news" \
    "[1 of 4, 0m00s] still proving panelrun panelrun_show apart, 0m00s without news" \
    "[2 of 4, 0m00s] still proving panelrun_show apart, 0m00s without news" \
    "[1 of 1 edits, 0m00s] still trying edits, 0m00s without news; what they came to is told once all are tried" \
    "[0m00s] still running programs and tests, 0m00s without news" \
    "[0m00s] tests/own/gate.sh is still running, 0m00s without news" <<END
$test_begins
[2 of 4, 0m00s] panelrun proved
[1 of 1 edits, 0m00s] panelrun: trying its must-fail edits (1)
[3 of 4, 0m00s] panelrun_show proved
[4 of 4, 0m00s] apart proved
$ran
$last
== [1 of 1, 0m00s] tests/own/gate.sh
one is as promised
two too
$last
END
diff <(grep -v '^sleep' "$work/says" | sed 'N; s/front == panel\nrun/== panelrun/; P; D') "$repo/target/log/ci" || die "target/log/ci is not what rt ci said"
beat=30

# By ctrl-C: a sentence, status 130, and what ran is ended.
# COMMAND LINE: stopped once it has printed the line and what runs does not end; its last line is standard input.
is_stopped() {
    local status=0 tries=100 pid
    rm -f "$work/pid"
    setsid env -i --default-signal=INT PATH="$work/bin:$work/base" bash "$repo/$1" >"$work/out" 2>&1 </dev/null &
    pid=$!
    until grep -q "$2" "$work/out" && [ -s "$work/pid" ]; do
        sleep 0.1
        tries=$((tries - 1))
        [ "$tries" -gt 0 ] || die "$1 does not come to: $2"
    done
    kill -INT -- "-$pid"
    tries=100
    while kill -0 "$pid" 2>/dev/null; do
        sleep 0.1
        tries=$((tries - 1))
        [ "$tries" -gt 0 ] || die "$1 goes on after ctrl-C"
    done
    wait "$pid" || status=$?
    sed -i -E 's/[0-9]+m[0-9]{2}s/0m00s/g' "$work/out"
    diff - <(tail -n 1 "$work/out") || die "$1 does not say that it was stopped"
    if grep -q 'FAILED\|failed' "$work/out"; then die "$1 says that something failed"; fi
    [ "$status" -eq 130 ] || die "$1 ends with $status by ctrl-C"
    if kill -0 "$(cat "$work/pid")" 2>/dev/null; then die "$1 leaves behind what it ran"; fi
}
printf '%s\n' "rt: chose --jobs 2 for lists" "for ever" | says 0
is_stopped run proving <<<"stopped after 0m00s: the crates that were proved are kept, and ./run goes on from there"
printf '%s\n' "$proved" "for ever" | says 0
for command in test .ci/run; do
    is_stopped $command 'apart proved' <<<"stopped after 0m00s: what was proved is kept, and ./test goes on from there"
done
# during a comparison
printf '%s\n' "$proved" "$edit" "$ran" 'all passed' | says 0
own 'echo begun' "echo \$\$ >'$work/pid'" 'exec sleep 30'
is_stopped test begun <<<"stopped after 0m00s: what was proved is kept, and ./test goes on from there"

# A folder that crates.txt does not list.
mkdir -p "$repo/crates/nowhere/src"
shows 1 test <<<"crates/nowhere is not listed in crates.txt"
echo "tests/commands: ./run, ./test and .ci/run show their progress, say what is missing or left out, and end as what they run"
