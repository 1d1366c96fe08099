# What the scripts know of the Rattle kit. Sourced with `name`, the script's name, and `root`, the repository's folder. Sets rt, the kit's
# command; kit, its folder; and toolchain, the folder of its compiler and C library, which are for x86-64.

fail() {
    printf '%s: %s\n' "$name" "$*" >&2
    exit 2
}

rt=$(command -v rt) || fail "the Rattle kit's command rt is not in PATH"
kit=$(dirname "$(dirname "$(readlink -f "$rt")")")
toolchain=$kit/toolchain
[ -d "$toolchain" ] || fail "the kit has no toolchain at $toolchain"
[ "$(uname -m)" = x86_64 ] || fail "the kit's programs are for x86-64, and this machine is $(uname -m)"

# Whether a file is there, and no source of the crates, nor a folder of sources, is newer. What rt writes stands in the crates' out/.
is_new() {
    [ -f "$1" ] && [ -z "$(find "$root"/crates/*/src "$root"/crates/*/specs "$root"/crates/*/proofs "$root/crates.txt" -newer "$1" 2>/dev/null | head -n 1)" ]
}

# How many crates of the repository have to be proved for one: itself, and all that it stands on.
crates_for() {
    awk -v wanted="$1" '
        { sub(/#.*/, "") }
        /:/ { crate = $1; sub(/:.*/, "", crate); stands_on[crate] = substr($0, index($0, ":") + 1) }
        function visit(crate,    list, count, k) {
            if (!(crate in stands_on) || crate in seen) return
            seen[crate] = 1
            total++
            count = split(stands_on[crate], list, " ")
            for (k = 1; k <= count; k++) visit(list[k])
        }
        END { visit(wanted); print total + 0 }' "$root/crates.txt"
}

# Reads what rt says as it says it, and tells on standard error which crate of how many is proved.
progress() {
    total=$1 at=0 crate=
    while IFS= read -r line; do
        case $line in
        'rt: chose '*) ;;
        'rt: '*) printf '%s: %s\n' "$name" "${line#rt: }" >&2 ;;
        'fn '*::* | 'struct '*::* | 'enum '*::*)
            crate=${line#* }
            crate=${crate%%::*}
            ;;
        'logic=proved '*)
            at=$((at + 1))
            printf '%s: %s of %s proved: %s\n' "$name" "$at" "$total" "$crate" >&2
            ;;
        esac
    done
}

# Says each half minute that rt is still at work, for as long as this script runs.
still_at_work() {
    seconds=0
    while sleep 30 >/dev/null 2>&1 && kill -0 "$$" 2>/dev/null; do
        seconds=$((seconds + 30))
        printf '%s: .. still proving, after %s s\n' "$name" "$seconds" >&2
    done
}

# prove WHAT COMMAND CRATE: says what is made, and runs rt in the crate's folder, which proves the crate and all that it stands on. What rt says of
# each crate goes to standard error as it comes, and where rt fails all of it. rt keeps what it proved in the crates' out/, and proves what changed.
prove() {
    total=$(crates_for "$3")
    printf '%s: %s: %s crates are proved first where they are not yet, in %s to %s minutes from nothing\n' "$name" "$1" \
        "$total" $(((total + 2) / 3)) $((total * 3 / 4 + 1)) >&2
    mkdir -p "$root/target" || fail "no folder could be made at $root/target"
    log=$root/target/$3.said
    rm -f "$log.proved"
    still_at_work &
    worker=$!
    (cd "$root/crates/$3" && "$rt" "$2" </dev/null 2>&1 && : >"$log.proved") | tee "$log" | progress "$total"
    { kill "$worker" && wait "$worker"; } 2>/dev/null || true
    if [ ! -f "$log.proved" ]; then
        cat "$log" >&2
        fail "'rt $2' failed in crates/$3"
    fi
    rm -f "$log" "$log.proved"
}

# build_program CRATE: has the crate's program built where it isn't yet, or where its sources are newer. Sets `program`, its file. `rt run` builds a
# program and runs it, here on no input, which ends it at once.
build_program() {
    program=$root/crates/$1/out/$1
    built=$root/target/$1-built
    if [ ! -x "$program" ] || [ "$program" -nt "$built" ] || ! is_new "$built"; then
        prove 'building the program' run "$1"
        : >"$built"
    fi
}

# run_program HINT..: runs `program`, which plays lines on standard input and output, and exits with its status. A person at a terminal is told
# how to begin, in so many lines more as there are hints. A closed pipe is an error of the program's write, and not its silent end. A program
# in Rattle has no exit status of its own to give: what it says on standard error, with its name in front, says that it failed. It runs with the
# kit's C library.
run_program() {
    if [ -t 0 ]; then
        for hint in 'type a line; "help" names the commands, Ctrl-D ends' "$@"; do
            printf '%s: %s\n' "$name" "$hint" >&2
        done
    fi
    trap '' PIPE
    { :; } 2>/dev/null 3>&1 || fail 'standard output is closed'
    exec 3>&1
    said=$("$toolchain/lib/ld-linux-x86-64.so.2" --library-path "$toolchain/lib" "$program" 2>&1 >&3 3>&-)
    status=$?
    [ -z "$said" ] || printf '%s\n' "$said" >&2
    case $said in
    *"$name: "*) [ "$status" -ne 0 ] || status=1 ;;
    esac
    exit "$status"
}
