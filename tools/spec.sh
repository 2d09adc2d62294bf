#!/bin/sh
# spec.sh [FILE]: writes every definition that the exports and the claim stand on, in document 01's order, with its comments, as one page in
# Markdown (FILE, default target/spec.md). A definitions file of a crate that these use and that has no place here is an error.
set -eu
cd "$(dirname "$0")/.."
page=${1:-target/spec.md}

# A line with a number of # is a heading; the others are a crate and its files below specs/.
order='## Numbers, and refusals in their order
refusal Refusal
record Bytes Four Items Refusals
time Frequency MaybeHertz arithmetic
clock Clock
## The verdict on a plan
plan Code codes Plan bytes tests
plan_clocks Clocks
limits Limits
verdict tests Verdict planned
## The head
layout Layout
register Numbers Word Codes bytes
task Task look_up bytes
head Head Record Encodable from_bytes/Decodes tasks
## The journal: what a call does
journal Run Machine
waits Found
## A call on lent bytes, and the word that C gets
call Call store with_plan clocks word
moment Moment
## Readings: `rcc/clock_read.rs`, `rcc/clock_lpsys.rs`
clock_read Hpsys devices buses lpsys
readings Clocks hclk
## Supplies: `pmu/dvfs.rs`
dvfs Hpsys lpsys limits
dvfs_hpsys volts switch HpsysModes
dvfs_lpsys switch LpsysModes
## LPSYS: `rcc/clock_lpsys.rs`
lpsys_tests Tests
lpsys_request modes hdiv Request slow frequency
lpsys_wake count hxt48 Wake
clock_lpsys dividers selects Calls
## The core clock: `rcc/clock_config.rs`
calibration measure search Calibration
dll Dll
core_clock dividers CoreClock switch
init_first begin warning First
init_rest flash selects Rest
clock_init from_core Init Told
clock_config calibrate init reconfigure
## The guarded change
fit rail Fit Unfit
guard_steps peak supply flash Steps
guard_change Change
guard tests Guard
## Tasks
load Load check
booking tests Booking Release LookUp
fit_reading Reading
## Demand 3
lpsys_request Safe
claim Moment Claim joined
## Who plays a journal
play Play'

# The crates that rikkovan, claim and play use, themselves included: crates.txt names each after those that it uses.
used=$(awk -F: '
    !/^#/ && NF > 1 { sub(/ .*/, "", $1); names[++n] = $1; uses[$1] = $2 }
    END {
        want["rikkovan"] = want["claim"] = want["play"] = 1
        for (i = n; i > 0; i--) if (want[names[i]]) {
            print names[i]
            count = split(uses[names[i]], below, " ")
            for (k = 1; k <= count; k++) want[below[k]] = 1
        }
    }' crates.txt)

listed=$(echo "$order" | awk '!/^#/ { for (i = 2; i <= NF; i++) print "crates/" $1 "/specs/" $i ".antt" }')
for crate in $used; do
    [ -d "crates/$crate/specs" ] || continue
    find "crates/$crate/specs" -name '*.antt' | while read -r file; do
        grep -qvE '^((pub )?mod [[:alnum:]_]+)?$' "$file" || continue
        echo "$listed" | grep -qxF "$file" || { echo "spec.sh: $file has no place on the page; give it one in tools/spec.sh" >&2; exit 1; }
    done
done

# values CRATE: the structs and enums that the code declares and the definitions speak of.
values() {
    # shellcheck disable=SC2046
    set -- $(find "crates/$1/src" -name '*.rt' | sort)
    found=$(awk '
        FNR == 1 || /^$/ { notes = "" }
        /^\/\// { notes = notes $0 "\n" }
        /^pub (struct|enum) / { printf "%s%s%s\n", some ? "\n" : "", notes, $0; some = 1; open = /\{$/; notes = ""; next }
        open { print; if (/^\}/) open = 0 }' "$@")
    [ -z "$found" ] || printf '\n`%s`, the values\n\n```\n%s\n```\n' "$(echo "$1" | cut -d/ -f1-3)" "$found"
}

mkdir -p "$(dirname "$page")"
{
    echo '# What a reader must believe'
    echo
    echo 'Every definition that the contracts of the exported calls and the claim stand on, in the order of document 01, with the values that'
    echo 'the code declares. A comment has the sentence or the function of the Rust that the definition under it states. Made by `make spec` from'
    echo 'the files named.'
    echo "$order" | while read -r crate files; do
        case $crate in
        '#'*) printf '\n%s %s\n' "$crate" "$files"; continue ;;
        esac
        values "$crate"
        for name in $files; do
            file=crates/$crate/specs/$name.antt
            printf '\n`%s`\n\n```\n' "$file"
            # The names that a file brings in say nothing; two blank lines become one.
            awk '/^((pub|unfoldable) )*use / { next } /^$/ { blank = 1; next } { if (blank && some) print ""; blank = 0; some = 1; print }' "$file"
            echo '```'
        done
    done
} > "$page.new"
mv "$page.new" "$page"
echo "$page: $(grep -c '^`crates/' "$page") files, $(wc -l < "$page") lines"
