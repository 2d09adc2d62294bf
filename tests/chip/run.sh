#!/usr/bin/env bash
# Tests target/chip/librikkovan.a on an emulated Cortex-M33. Run by `make chip`, which builds it first. Prints a line for each test.
# run.sh measure: prints instead, of each call, its stack and its instructions there.
set -uo pipefail
cd "$(dirname "$0")/../.." || exit

cc=${CC:-cc}
target=${CHIP:-thumbv8m.main-none-eabi}
archive=target/chip/librikkovan.a
data=crates/replay/data
. tests/lib.sh chip || exit

float=soft
case $target in *hf) float=hard ;; esac
arm=(arm-none-eabi-gcc -mcpu=cortex-m33 -mthumb -mfloat-abi=$float -nostartfiles --specs=nosys.specs
    -Wl,--gc-sections,--no-warn-execstack -T tests/chip/board.ld)
strict=(-std=c99 -Wall -Wextra -Werror -O2 -Ibuild)

# The replay, with the header of a folder, and the linker's flags and files that are named.
program() { # TO HEADER-FOLDER WORDS..
    "${arm[@]}" "${strict[@]}" -I"$2" -o "$1" tests/chip/board.c tests/chip/replay.c "${@:3}"
}

# A run takes seconds, but in the gate it has only what the other tests leave of the processors.
emulate() { # PROGRAM WORD..
    local words=enable=on,target=native word
    for word in "${@:2}"; do words+=,arg=$word; done
    timeout 1800 qemu-system-arm -M mps2-an505 -display none -monitor none -serial none "${qemu[@]}" \
        -semihosting-config "$words" -kernel "$1"
}
qemu=()

layout_refuses() {
    local edit
    ! tools/chip-layout.py tests/chip/layout.ll >/dev/null || { echo 'not refused: the module before chip-pairs.py'; return 1; }
    tools/chip-pairs.py tests/chip/layout.ll >"$work/layout.ll"
    tools/chip-layout.py "$work/layout.ll" || return
    while read -r edit; do
        sed "$edit" "$work/layout.ll" >"$work/fault.ll"
        ! cmp -s "$work/layout.ll" "$work/fault.ll" || { echo "changes nothing: $edit"; return 1; }
        ! tools/chip-layout.py "$work/fault.ll" >/dev/null || { echo "not refused: $edit"; return 1; }
    done < <(grep -v '^#' tests/chip/layout.faults)
}

archive_has_every_call() {
    diff <(header_calls) <(arm-none-eabi-nm -g --defined-only "$archive" | sed -n 's/.* T \(rikkovan_.*\)/\1/p' | sort)
}

replays() {
    program "$work/board" include "$archive" && emulate "$work/board" "$data" | diff crates/replay/stdout -
}

# Every line of what a replay wrote says that all of its lines differ.
all_differ() {
    awk '$2 != $4 { print; bad = 1 } { n++ } END { exit bad || n == 0 }' "$1"
}

# The last digit of the recorded answer goes: the last field of a reading, the last byte of the head or of the clocks.
finds_changed_records() {
    local file
    mkdir -p "$work/data"
    for file in "$data"/*.txt; do
        awk '{
            field = $NF == "-" ? NF - 1 : NF
            digit = substr($field, length($field))
            $field = substr($field, 1, length($field) - 1) (digit == "0" ? "1" : "0")
            print
        }' "$file" >"$work/data/${file##*/}"
    done
    emulate "$work/board" "$work/data" | grep -v ' differs$' >"$work/changed"
    all_differ "$work/changed"
}

finds_planted_faults() {
    emulate "$work/board" "$data" plant >"$work/planted"
    all_differ "$work/planted"
}

# A number of the module is another one: some answers are others.
finds_changed_constants() {
    local number
    for number in 240000000 7500000 10000000; do
        sed "s/\\b$number\\b/$((number - 1))/g" target/module/rikkovan.ll >"$work/faulty.ll"
        ! cmp -s target/module/rikkovan.ll "$work/faulty.ll" || { echo "the module has no $number"; return 1; }
        tools/chip.sh "$target" "$work/faulty.ll" "$work/faulty" &&
            program "$work/other" include "$work/faulty/librikkovan.a" || return
        ! emulate "$work/other" "$data" >"$work/answers" && grep -q ' differs$' "$work/answers" ||
            { echo "$number: no answer differs"; return 1; }
    done
}

# Such calls link, and take their arguments for others.
finds_lengths_of_32_bits() {
    mkdir -p "$work/header"
    sed -e 's/uint64_t \([a-z]*_len\)/size_t \1/g' -e 's/#include <stdint.h>/&\n#include <stddef.h>/' \
        include/rikkovan.h >"$work/header/rikkovan.h"
    program "$work/other" "$work/header" "$archive" || return
    ! emulate "$work/other" "$data" >"$work/answers" && grep -qE '^fault$| differs$' "$work/answers"
}

draws_as_on_x86_64() {
    "$cc" "${strict[@]}" -Iinclude -o "$work/host" tests/chip/host.c tests/chip/replay.c target/staticlib/librikkovan.a &&
        "$work/host" "$data" draw >"$work/drawn" &&
        emulate "$work/board" "$data" draw | diff "$work/drawn" - &&
        awk '{ calls += $2 } END { exit calls < 100000 }' "$work/drawn"
}

# A program in C on the board.
firmware() { # SOURCES..
    "${arm[@]}" "${strict[@]}" -Iinclude -Iexamples -o "$work/firmware" tests/chip/board.c tests/chip/firmware.c "$@" "$archive" &&
        emulate "$work/firmware"
}

runs_the_example() {
    firmware examples/firmware.c examples/play.c | diff tests/c/firmware.expected -
}

measure() {
    local wraps
    wraps=$(header_calls | sed 's/^/-Wl,--wrap=/')
    # shellcheck disable=SC2086
    program "$work/measure" include $wraps tests/chip/measure.c tests/chip/wraps.S "$archive" || return
    qemu=(-icount shift=10)
    emulate "$work/measure" "$data" measure
    qemu=()
}

# A line for each call that needs more stack than the header says, or of which it says nothing.
stack_is_within_the_header() {
    tools/chip-stack.sh >"$work/ways" || return
    awk 'NR == FNR { if (/^#define RIKKOVAN_STACK_/) stated["rikkovan_" tolower(substr($2, 16))] = $3; next }
        $2 > stated[$1] + 0 { print $1 ": " $2 " bytes, " stated[$1] + 0 " in the header"; bad = 1 }
        END { exit bad || FNR < 2 }' include/rikkovan.h "$work/ways"
}

# The table of docs/PERFORMANCE.md: a call, its stack on its deepest way and as it was measured, its instructions.
print_measured() {
    measure >"$work/measured" || return
    tools/chip-stack.sh >"$work/ways" || return
    awk 'FILENAME ~ /ways$/ { bound[$1] = $2; next }
        FILENAME ~ /calls.h$/ { gsub(/CALL\(|,/, ""); exported[$1] = $2; next }
        { printf "%-28s %6d %6d %7d %7d\n", substr(exported[$1], 10), bound[exported[$1]], $2, $3, $4 }' \
        "$work/ways" build/calls.h "$work/measured"
    arm-none-eabi-size "$archive" | awk 'NR == 2 { print "text " $1 " bytes, data " $2 ", bss " $3 }'
}

if [ "${1:-}" = measure ]; then
    print_measured
    exit
fi

check_with python3 'what may depend on the size of a pointer is refused' layout_refuses
check 'no call needs more stack than the header says' stack_is_within_the_header
# What is installed by half is as good as missing.
compiles() {
    echo 'int main(void) { return 0; }' | arm-none-eabi-gcc -mcpu=cortex-m33 -mthumb --specs=nosys.specs -x c -o "$work/empty" - >/dev/null 2>&1
}

emulates() { qemu-system-arm -M help 2>/dev/null | grep -q '^mps2-an505 '; }

skip() { # WHAT
    echo "chip: skipped: $archive is built and not tested ($1; make deps installs it)"
    all_passed
    exit 0
}

compiles || skip 'no arm-none-eabi-gcc with newlib'
emulates || skip 'no qemu-system-arm with the board mps2-an505'
check 'the archive has the calls of the header and no other' archive_has_every_call
check "the $(cat $data/*.txt | wc -l) recorded answers on the board, and every byte beside what is lent" replays
check 'a digit changed in each recorded answer is found' finds_changed_records
check 'a bit changed behind each call is found' finds_planted_faults
check 'numbers changed in the module are found' finds_changed_constants
check 'a header with lengths of 32 bits is found' finds_lengths_of_32_bits
check 'a hundred thousand random calls leave what they leave on x86-64' draws_as_on_x86_64
check 'the example for firmware on the board' runs_the_example
check 'the player on the board, with chips that are ready, late and never ready, and cut off anywhere' firmware tests/c/play.c examples/play.c
check 'readings on the board, with that of fit' firmware tests/c/readings.c
check 'moments on the board' firmware tests/c/moment.c

all_passed
