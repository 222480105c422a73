# Shared by the commands: what must be on the machine. Sourced from the repository's top.
# shellcheck shell=bash

die() {
    echo "$*" >&2
    exit 1
}

# Says something that is to be seen at the end too: NOTES, where ./test sets it, is the file whose lines it prints above its last.
note() {
    echo "$*"
    if [ -n "${NOTES:-}" ]; then echo "$*" >>"$NOTES"; fi
}

# A part of the tests cannot be run here. Under `./test --all`, which sets NOTHING_LEFT_OUT, that is a failure.
left_out() { # PART, WHAT IS MISSING, HOW TO GET IT
    if [ -n "${NOTHING_LEFT_OUT:-}" ]; then die "$1 cannot be left out: $2 is missing; to get it: $3"; fi
    note "left out: $1, since $2 is missing; to get it: $3"
}

# The Rattle kit, and python3, in which its command rt is written.
need_rt() {
    command -v rt >/dev/null 2>&1 || die "the Rattle kit is not on this machine: its command rt was not found"
    if ! command -v python3 >/dev/null 2>&1; then
        echo "python3, in which the kit's command rt is written, is not on this machine"
        need_packages python3
        command -v python3 >/dev/null 2>&1 || die "python3 was not found, though Debian's package is installed"
    fi
}

# Says in what the kit differs from the one that README.md names. That stops nothing: the kit that is here proves every crate itself.
compare_kit() {
    local named here kit="its name is the same" logic="its logic is the same"
    here=$(rt version) || die "the Rattle kit does not run: rt version failed"
    named=$(sed -n 's/^Proved with `\(.*\)`, which is what `rt version` prints\.$/\1/p' README.md)
    if [ "$here" = "$named" ]; then return; fi
    [ "${here%% *}" = "${named%% *}" ] || kit="its name is ${here%% *} and not ${named%% *}"
    [ "${here##* }" = "${named##* }" ] || logic="its logic is ${here##* } and not ${named##* }"
    if [ -z "$named" ]; then
        note "note: README.md does not say with which kit it was proved; this one is $here"
    else
        note "note: the kit here is not the one that README.md names: $kit, $logic; every proof is by the kit that is here"
    fi
}

# Those of Debian's packages that are not here: neither the package nor a command of its name.
missing_packages() { # NAME ..
    local p
    for p in "$@"; do
        command -v "$p" >/dev/null 2>&1 || dpkg-query -W -f='${Status}\n' "$p" 2>/dev/null | grep -q 'install ok installed' || echo "$p"
    done
}

# Installs those of Debian's packages that are not here.
need_packages() { # NAME ..
    local missing lists=fetched said
    missing=$(missing_packages "$@" | xargs)
    [ -n "$missing" ] || return 0
    command -v apt-get >/dev/null 2>&1 || die "these Debian packages are missing, and there is no apt-get to install them: $missing"
    [ "$(id -u)" -eq 0 ] || die "these Debian packages are missing, and only root can install them: sudo apt-get install --no-install-recommends $missing"
    echo "installing $missing"
    said=$(mktemp)
    # A list that cannot be fetched does not end the install: another may have the package.
    apt-get update -o APT::Update::Error-Mode=any >"$said" 2>&1 </dev/null || lists=
    # shellcheck disable=SC2086
    if ! DEBIAN_FRONTEND=noninteractive apt-get install -y --no-install-recommends $missing >>"$said" 2>&1 </dev/null; then
        tail -n 5 "$said"
        rm -f "$said"
        [ -n "$lists" ] || die "these Debian packages are missing, and apt-get could not fetch Debian's lists (is there a network?): $missing"
        die "these Debian packages are missing, and apt-get could not install them: $missing"
    fi
    rm -f "$said"
}

# All that the tests use of Debian's packages.
need_test_packages() {
    need_packages b3sum binutils g++ gcc libc6-dev python3 valgrind
}

# What the original Rust is built from.
need_rust_packages() {
    need_packages librust-blake3-dev librust-bytes-dev librust-bytes+serde-dev librust-data-encoding-dev librust-hex-dev librust-indexmap-dev librust-serde-dev librust-serde-derive-dev
}

# The panel's static library: PLUMTREE_LIB_DIR is afterwards the directory that has it. Without that variable it is target/staticlib, and the
# library is written there unless it is already that of these sources.
need_library() {
    if [ -z "${PLUMTREE_LIB_DIR:-}" ]; then
        tools/staticlib.sh plumtree || die "tools/staticlib.sh plumtree failed"
        PLUMTREE_LIB_DIR=target/staticlib
    fi
    [ -e "$PLUMTREE_LIB_DIR/libplumtree.a" ] || die "no libplumtree.a in $PLUMTREE_LIB_DIR"
    PLUMTREE_LIB_DIR=$(cd "$PLUMTREE_LIB_DIR" && pwd)
    export PLUMTREE_LIB_DIR
}

# The crates of a file like crates.txt, lowest first; with a name, those that it reaches, itself last.
reached() { # FILE [NAME]
    awk -v from="${2:-}" '
        { sub(/#.*/, "") }
        /:/ { i = index($0, ":"); split($0, words, /[ \t:]+/); order[++all] = words[1]; needs[words[1]] = substr($0, i + 1) }
        function visit(name,    uses, k, n) {
            if (!(name in needs) || name in seen) return
            seen[name] = 1
            n = split(needs[name], uses, " ")
            for (k = 1; k <= n; k++) visit(uses[k])
            print name
        }
        END { if (from != "") visit(from); else for (i = 1; i <= all; i++) visit(order[i]) }' "$1"
}

# Are the sources those that the last `rt ci` of ./test passed? Then what it built is in crates/NAME/out.
as_rt_ci_passed() {
    [ "$(cat target/log/ci.sum 2>/dev/null)" = "$(sources_sum $(reached crates.txt))" ]
}

# What these crates are made of, as a number.
sources_sum() { # NAME ..
    local c
    {
        rt version
        cat tools/staticlib.sh
        for c in "$@"; do
            grep -E "^${c}[ :]" crates.txt
            find "crates/$c" -path "crates/$c/out" -prune -o \( -name '*.rt' -o -name '*.antt' \) -print | LC_ALL=C sort | xargs -r -d '\n' sha256sum
        done
    } | sha256sum
}

# A crate folder that crates.txt does not list is an error.
every_crate_listed() {
    local d n
    for d in crates/*/src; do
        n=$(basename "$(dirname "$d")")
        [ -n "$(reached crates.txt "$n")" ] || die "crates/$n is not listed in crates.txt"
    done
}

# Is there a cargo that builds the original Rust, 1.82 or later?
rust_is_here() {
    local v
    v=$(cargo --version 2>/dev/null | sed -n 's/^cargo 1\.\([0-9]*\)\..*/\1/p')
    [ -n "$v" ] && [ "$v" -ge 82 ]
}

clippy_is_here() {
    cargo clippy --version >/dev/null 2>&1
}

cargo_from="apt-get install cargo-web rustc-web (Debian 12), or rustup"
clippy_from="apt-get install rust-web-clippy (with Debian 12's cargo-web), or rustup component add clippy"

# For a part of the tests that runs the original Rust: without a cargo for it, the part is left out. The stored answers are still replayed by `rt ci`.
have_rust() { # [PART]
    if rust_is_here; then return; fi
    left_out "${1:-what runs the original Rust}" "cargo of 1.82 or later" "$cargo_from"
    return 1
}

# The same for a part that runs clippy.
have_clippy() { # PART
    if clippy_is_here; then return; fi
    left_out "$1" "clippy" "$clippy_from"
    return 1
}

# For `./test --all`: cargo and clippy, installed where they are missing. Debian 12's own cargo is older than 1.82, its cargo-web is not. Clippy goes with its cargo: only
# that of Debian's is installed.
need_rust() {
    rust_is_here || need_packages cargo-web rustc-web
    hash -r
    rust_is_here || die "cargo of 1.82 or later is missing; to get it: $cargo_from"
    if ! clippy_is_here && missing_packages cargo-web | grep -q .; then die "clippy is missing; to get it: $clippy_from"; fi
    clippy_is_here || need_packages rust-web-clippy
    clippy_is_here || die "clippy is missing; to get it: $clippy_from"
}
