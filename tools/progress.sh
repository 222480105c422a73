# Shared by the commands: progress while crates are proved. Sourced from the repository's top, behind tools/setup.sh.
# shellcheck shell=bash

# Where nothing was printed for so long, a line says what is waited for.
HEARTBEAT_SECONDS=${HEARTBEAT_SECONDS:-30}

# How many crates of crates.txt the named one reaches, itself included; without a name, how many there are.
crate_count() {
    reached crates.txt "${1:-}" | wc -l
}

# How many edits there are that must be refused.
edit_count() {
    find crates/*/must-fail -name '*.edit' | wc -l
}

# A number of seconds as text.
clock() {
    printf '%dm%02ds' $(($1 / 60)) $(($1 % 60))
}

# The time since the command began.
so_far() {
    clock "$SECONDS"
}

# About how many minutes some minutes of one processor take on those that are here, of which at most so many are used.
minutes_here() { # MINUTES MOST
    local processors
    processors=$(nproc)
    if [ "$processors" -gt "$2" ]; then processors=$2; fi
    echo $(($1 / processors))
}

# Prints a line or more, and notes when: the readers below have `shown`, the second at which something was printed last, and `heard`, that of the last line read.
show() {
    printf '%s\n' "$1"
    shown=$SECONDS
}

# Reads a line into `line`. Where nothing is printed for HEARTBEAT_SECONDS, what the given command prints is printed. False at the end of the input.
next_line() { # COMMAND ..
    local part='' rest='' left status
    while true; do
        left=$((shown + HEARTBEAT_SECONDS - SECONDS))
        if [ "$left" -le 0 ]; then
            show "$("$@")"
            continue
        fi
        status=0
        IFS= read -r -t "$left" part || status=$?
        rest+=$part
        # A status over 128: the time is up, and what was read is the beginning of a line.
        if [ "$status" -le 128 ]; then break; fi
    done
    line=$rest heard=$SECONDS
    [ "$status" -eq 0 ] || [ -n "$line" ]
}

# The crates that are not among the named ones but whose libraries are: they are being proved, or wait for a processor.
next_crates() { # PROVED ..
    awk -v proved=" $* " '
        function is_proved(name) { return index(proved, " " name " ") > 0 }
        { sub(/#.*/, "") }
        /:/ { i = index($0, ":"); split($0, words, /[ \t:]+/); order[++all] = words[1]; needs[words[1]] = substr($0, i + 1) }
        END {
            for (i = 1; i <= all; i++) {
                lacking = is_proved(order[i])
                n = split(needs[order[i]], uses, " ")
                for (k = 1; k <= n; k++) if (uses[k] in needs && !is_proved(uses[k])) lacking = 1
                if (!lacking) print order[i]
            }
        }' crates.txt
}

# What `rt ci` is at, by what `progress` has read of it.
ci_is_at() { # CRATES EDITS
    local for_now
    for_now="$(clock $((SECONDS - heard))) without news"
    # shellcheck disable=SC2086
    if [ "$crates" -lt "$1" ]; then
        echo "[$crates of $1, $(so_far)] still proving $(next_crates $proved | xargs), $for_now"
    elif [ -z "$tried" ]; then
        echo "[$edits of $2 edits, $(so_far)] still trying edits, $for_now; what they came to is told once all are tried"
    else
        echo "[$(so_far)] still running programs and tests, $for_now"
    fi
}

# Reads what `rt ci` says and prints a line for each crate proved and each crate whose edits are begun, with how many of how many and the time so far. What an earlier run
# proved or tried, and an edit that is refused, is counted in silence. What the prover says of a crate is printed where it is not proved, and all else as it comes.
progress() { # CRATES EDITS
    local line said='' inside='' crates=0 edits=0 more name proved='' tried='' shown=$SECONDS heard=$SECONDS
    while next_line ci_is_at "$1" "$2"; do
        case $line in
        "== "*)
            inside=${line#== } said=
            continue
            ;;
        "rt: $inside proved" | "rt: $inside are proved" | "rt: "*" NOT PROVED"*)
            name=${line#rt: } name=${name%%[: ]*}
            case $line in *": its tests "*) ;; *) crates=$((crates + 1)) proved+=" $name" ;; esac
            case $line in *" NOT PROVED"*) printf %s "$said" ;; esac
            line="[$crates of $1, $(so_far)] ${line#rt: }"
            inside='' said=
            ;;
        "rt: "*" is kept: "*)
            name=${line#rt: } name=${name%%[: ]*}
            crates=$((crates + 1)) proved+=" $name"
            continue
            ;;
        "rt: "*": trying its must-fail edits ("*")")
            more=${line##*(} more=${more%?}
            edits=$((edits + more))
            line="[$edits of $2 edits, $(so_far)] ${line#rt: }"
            ;;
        "rt: "*" must-fail edits were tried by an earlier run "* | "rt: must-fail "*": refused, as it must be"*)
            tried=1
            continue
            ;;
        *)
            if [ -n "$inside" ]; then
                said+=$line$'\n'
                continue
            fi
            tried=1
            ;;
        esac
        show "$line"
    done
    printf %s "$said"
}

# What `rt run` or `rt lib` is at, by what `building` has read of it.
build_is_at() {
    echo "[$crates, $(so_far)] ${crate:-a crate} is still being proved, for $(clock $((SECONDS - began)))"
}

# Reads what `rt run` or `rt lib` says and prints a line for each crate that was proved, with the time so far. What the prover says of a crate is printed where it is not
# proved.
building() {
    local line said='' crate='' crates=0 began=$SECONDS shown=$SECONDS heard=$SECONDS
    while next_line build_is_at; do
        case $line in
        "crate "*": modules "*)
            crate=${line#crate } crate=${crate%%:*}
            said+=$line$'\n'
            ;;
        "logic=proved "*)
            crates=$((crates + 1)) said=
            show "[$crates, $(so_far)] $crate proved"
            crate='' began=$SECONDS
            ;;
        "rt: chose "*" for "*) crate=${line##* for } began=$SECONDS ;;
        "rt: "*": begins with what a check kept "* | "rt: running "* | "rt: nothing has changed "* | "linked "*) ;;
        *) said+=$line$'\n' ;;
        esac
    done
    printf %s "$said"
}

# Passes lines on as they come, and says what is waited for where none comes.
waiting() { # WHAT
    local line shown=$SECONDS heard=$SECONDS
    while next_line is_running "$1"; do show "$line"; done
}

is_running() { # WHAT
    echo "[$(so_far)] $1 is still running, $(clock $((SECONDS - heard))) without news"
}
