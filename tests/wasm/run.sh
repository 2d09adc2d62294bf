#!/usr/bin/env bash
# Tests target/wasm/rikkovan.wasm under node. Run by `make wasm`, which builds it first. Prints a line for each test.
set -uo pipefail
cd "$(dirname "$0")/../.." || exit

data=crates/replay/data
. tests/lib.sh wasm || exit

replay() { # MODULE WORD..
    node tests/wasm/replay.mjs "$1" build/calls.h "$data" "${@:2}"
}

# node ends with an error where the module has imports.
replays() {
    replay target/wasm/rikkovan.wasm | diff crates/replay/stdout -
}

finds_planted_faults() {
    replay target/wasm/rikkovan.wasm plant | awk '$2 != $4 { print; bad = 1 } { n++ } END { exit bad || n == 0 }'
}

# HCLK may be 240 MHz, and with this number it may not.
finds_a_changed_number() {
    sed 's/\b240000000\b/239999999/g' target/module/rikkovan.ll >"$work/faulty.ll"
    tools/chip.sh wasm32-unknown-unknown "$work/faulty.ll" "$work/faulty" &&
        replay "$work/faulty/rikkovan.wasm" | grep -v ' 0 different$'
}

command -v node >/dev/null || {
    echo 'wasm: skipped: target/wasm/rikkovan.wasm is built and not tested (node is not installed; make deps installs it)'
    exit 0
}
check "the $(cat $data/*.txt | wc -l) recorded answers under node, without imports" replays
check 'a bit changed behind each call is found' finds_planted_faults
check 'a number changed in the module is found' finds_a_changed_number

all_passed
