#!/usr/bin/env bash
# chip.sh TARGET [MODULE FOLDER]: compiles target/module/rikkovan.ll, which is proved, with the kit's own compiler for a target that
# the kit promises nothing of: for a Cortex-M33 (thumbv8m.main-none-eabi, or -eabihf) to target/chip/librikkovan.a, for
# wasm32-unknown-unknown to target/wasm/rikkovan.wasm. CHIP_OPTIMIZE has other flags for the chip's. docs/CHIP.md says what is trusted.
set -euo pipefail
cd "$(dirname "$0")/.."

target=$1
module=${2:-target/module/rikkovan.ll}
folder=${3:-}
tools=$(dirname "$(rt doc)")/toolchain/bin
# What rattle gives its compiler, but for the flags of x86-64.
flags=(--target="$target" -ffunction-sections -fdata-sections -mllvm -trap-unreachable -mllvm -no-trap-after-noreturn
    -mllvm -disable-machine-licm -mllvm -disable-postra-machine-licm -mllvm -sink-common-insts=false
    --no-default-config -no-canonical-prefixes -fintegrated-cc1 -fno-crash-diagnostics -Werror -x ir)
# A call that is one function needs the fewest instructions. -O1 would keep the zeros with which
# rattle fills each local first, and to unroll the loops would take 23,000 bytes more.
one_function=(-O2 -fno-unroll-loops -mllvm -inline-threshold=4000)

fail() {
    echo "chip: FAILED: $*"
    exit 1
}

# The module with the two lines that name a target, and without the attributes of its functions that name x86-64: three lines.
for_target() { # TO
    "$tools/clang" --target="$target" -S -emit-llvm -x c /dev/null -o - | grep '^target ' >"$1.target"
    grep -q '^target datalayout = "e-' "$1.target" || fail "$target is not little-endian"
    awk -v target="$1.target" '
        BEGIN { while ((getline line <target) > 0) { split(line, word, " "); lines[word[2]] = line } }
        /^target / { print lines[$2]; next }
        /^attributes #/ { sub(/ "probe-stack"="inline-asm" "stack-probe-size"="[0-9]+"/, ""); sub(/ "target-cpu"="x86-64"/, "") }
        { print }' "$module" >"$1"
    rm "$1.target"
    [ "$(diff "$module" "$1" | grep -c '^>')" -eq 3 ] || fail 'the edit of the module is not of three lines'
}

cortex_m33() {
    local out=${folder:-target/chip}
    flags+=(-mcpu=cortex-m33)
    # shellcheck disable=SC2206
    flags+=(${CHIP_OPTIMIZE:-${one_function[@]}})
    mkdir -p "$out"
    for_target "$out/rikkovan.ll"
    "$tools/clang" "${flags[@]}" -fstack-usage -c "$out/rikkovan.ll" -o "$out/rikkovan.o"
    "$tools/clang" "${flags[@]}" -S "$out/rikkovan.ll" -o "$out/rikkovan.s"
    rm -f "$out/librikkovan.a"
    "$tools/llvm-ar" rcsD "$out/librikkovan.a" "$out/rikkovan.o"
}

wasm() {
    local out=${folder:-target/wasm}
    mkdir -p "$out"
    for_target "$out/rikkovan.ll"
    "$tools/clang" "${flags[@]}" -O2 -c "$out/rikkovan.ll" -o "$out/rikkovan.o"
    local exports
    readarray -t exports < <(sed -n 's/^uint64_t \(rikkovan_[a-z0-9_]*\)(.*/--export=\1/p' include/rikkovan.h)
    # The kit's compiler is its linker too, by this name.
    (exec -a wasm-ld "$tools/clang" "${exports[@]}" --no-entry --strip-all --stack-first -z stack-size=32768 \
        -o "$out/rikkovan.wasm" "$out/rikkovan.o")
}

case $target in
thumbv8m.main-none-eabi | thumbv8m.main-none-eabihf) cortex_m33 ;;
wasm32-unknown-unknown) wasm ;;
*) fail "no rule for $target" ;;
esac
