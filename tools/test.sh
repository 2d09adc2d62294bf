#!/usr/bin/env bash
# The whole test, run by `make test`: rt ci proves every crate, then the programs and the proved library are tested, from C, from Rust
# and against the Rust. On success the last line is that of rt ci, 'N passed, 0 failed'.
set -euo pipefail
cd "$(dirname "$0")/.."
exec </dev/null
PATH=$PATH:${HOME:-/root}/.cargo/bin

logs=$(mktemp -d)
group=''
trap leave EXIT

# Ends what was begun and goes on yet, with all that it started.
leave() {
    [ -z "$group" ] || kill -- "-$group" 2>/dev/null || true
    rm -rf "$logs"
}

say() { printf 'test: %s\n' "$*"; }

fail() {
    say "FAILED: $*"
    exit 1
}

need() { # COMMAND WHAT-FOR
    command -v "$1" >/dev/null || fail "$1 is missing; it is needed $2"
}

# Runs a command, and says how long it took.
stage() { # NAME COMMAND..
    local name=$1 began=$SECONDS
    shift
    say "$name"
    "$@" || fail "$name"
    say "$name: ok ($((SECONDS - began)) s)"
}

# rt ci refuses a Rattle file that no listed crate has; this also finds a folder without one.
every_crate_is_listed() {
    local folder name unlisted=0
    for folder in crates/*/; do
        name=$(basename "$folder")
        if ! grep -qE "^[[:space:]]*${name}[[:space:]]*(staticlib[[:space:]]*)?:" crates.txt; then
            say "crates/$name is not listed in crates.txt"
            unlisted=1
        fi
    done
    return "$unlisted"
}

# In a process group of its own, for leave to end.
apart() { # COMMAND..
    set -m
    "$@" &
    set +m
    group=$!
    wait "$group" || return
    group=''
}

# rt ci passes with must-fail edits that it cannot apply or read. Here they fail, since they try nothing. What an earlier run left in out/ it
# puts back at its end, whatever sources that was proved of, and take.sh would take it; so nothing is left there.
rt_ci() {
    local bad
    rm -rf crates/*/out
    apart tools/prove.sh 'rt ci' ci || return
    tally=$(tail -n 1 build/log/ci)
    [[ $tally =~ ^[0-9]+' passed, 0 failed'$ ]] || return
    bad=$(sed -n 's/^rt: ok;.* must-fail edits: [^;]*, \([0-9]*\) bad.*/\1/p' build/log/ci)
    [ "${bad:-0}" -eq 0 ] && return
    grep 'BAD EDIT' build/log/ci || true
    return 1
}

sources=${SIFLI_SRC:-../shared/docs/src}

has_cargo() { command -v cargo >/dev/null; }

can_compare() { [ -d "$sources/sifli-hal/src" ] && has_cargo; }

# The two halves of the comparison come last, since they take about as long as each other.
test_library() {
    local parts=(lib test-programs test-c test-fuzz chip wasm)
    has_cargo && parts+=(test-rust chip-rust)
    can_compare && parts+=(test-oracle compare-plans compare-heads)
    apart make --no-print-directory "-j$(nproc)" --output-sync "${parts[@]}"
}

say_skipped() {
    has_cargo || say 'tests from Rust and comparison with the Rust skipped: cargo is missing'
    [ -d "$sources/sifli-hal/src" ] ||
        say "comparison with the Rust skipped: no sources at $sources (SIFLI_SRC names their folder)"
}

need rt 'to prove the crates (the Rattle kit)'
need python3 'for rt and the tools'
need make 'to build the tests'
need "${CC:-cc}" 'to test the library from C'
need "${CXX:-g++}" 'to test the header from C++'
[ "$(uname -m)" = x86_64 ] || fail 'the library links into x86-64 programs only'

say_skipped
stage 'list of crates' every_crate_is_listed
stage 'docs/CONTRACTS.md and the sources' tools/contracts.py --check
stage 'a place for each definition' tools/spec.sh "$logs/spec.md"
stage 'how far the prover is' tests/prove/run.sh
stage 'rt ci' rt_ci
stage 'why the must-fail edits were refused' tools/refusals.py
stage 'the programs and the archive' tools/take.sh
stage 'axioms' tools/axioms.sh
stage 'tests of the library and the programs' test_library
say "all passed ($SECONDS s)"
echo "$tally"
