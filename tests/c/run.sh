#!/usr/bin/env bash
# Tests the header, the library and the examples, and what make install writes. Run by `make
# test-c`, which builds the library, the daemon and the programs first. Prints a line for each test.
set -uo pipefail
cd "$(dirname "$0")/../.." || exit
unset MAKEFLAGS

cc=${CC:-cc}
cxx=${CXX:-g++}
strict=(-Wall -Wextra -pedantic -Wconversion -Wsign-conversion -Werror -O2)
library=target/staticlib/librikkovan.a
daemon=build/daemon
. tests/lib.sh test-c || exit

builds_and_runs() { # PROGRAM COMMAND..
    local program=$1
    shift
    "$@" -o "$program" && "$program"
}

header_as_c() {
    builds_and_runs "$work/c" "$cc" -std="$1" "${strict[@]}" -Iinclude tests/c/header.c "$library"
}

header_as_cxx() {
    builds_and_runs "$work/cxx" \
        "$cxx" -std="$1" "${strict[@]}" -Iinclude -x c++ tests/c/header.c -x none "$library"
}

# Runs a test as C99, then as C++.
calls() { # FILE, without .c
    in_c_and_cxx "$1" "tests/c/$1.c"
}

in_c_and_cxx() { # NAME FILE..
    local name=$1
    shift
    builds_and_runs "$work/$name" \
        "$cc" -std=c99 "${strict[@]}" -Iinclude -Iexamples "$@" "$library" &&
        builds_and_runs "$work/$name-cxx" "$cxx" -std=c++11 "${strict[@]}" -Iinclude -Iexamples \
            -x c++ "$@" -x none "$library"
}

# Of every line of misuse.c, as C and as C++: without it the file compiles, with it it does not.
misuse_does_not_compile() {
    local misuse most as
    most=$(grep -c '^#.*if MISUSE == ' tests/c/misuse.c)
    for as in "$cc -std=c99 -x c" "$cxx -std=c++11 -x c++"; do
        # shellcheck disable=SC2086
        $as -Iinclude -fsyntax-only -DMISUSE=0 tests/c/misuse.c || return
        for misuse in $(seq "$most"); do
            # shellcheck disable=SC2086
            ! $as -Iinclude -fsyntax-only -DMISUSE="$misuse" tests/c/misuse.c || {
                echo "misuse $misuse compiles: $as"
                return 1
            }
        done
    done
}

# Calls on a head are those that are lent one.
every_call_on_a_head_gives_an_answer() {
    diff <(header_calls | grep -vx -e rikkovan_plan_check -e rikkovan_load_check) \
        <(sed -n 's/^#define \(rikkovan_[a-z0-9_]*\)(\.\.\.) rikkovan_answer_of(\1(__VA_ARGS__))$/\1/p' \
            include/rikkovan.h | sort)
}

# On the chip a call returns its word in registers, and has lengths of 64 bits: what clang makes of
# a call says so.
calls_fit_the_chip() {
    clang --target=thumbv8m.main-none-eabi -ffreestanding -std=c99 "${strict[@]}" -Iinclude -S \
        -emit-llvm -o "$work/chip.ll" tests/c/header.c &&
        grep -E '^declare .*i64 @rikkovan_read_clocks\((i8\*|ptr)[a-z ]*, i64[a-z ]*, (i32\*|ptr)[a-z ]*\)' \
            "$work/chip.ll"
}

versions_agree() {
    local version major minor patch
    version=$(sed -n 's/^VERSION = //p' Makefile)
    IFS=. read -r major minor patch <<<"$version"
    grep -x "#define RIKKOVAN_LIBRARY_VERSION \"$version\"" include/rikkovan.h &&
        grep -x "#define RIKKOVAN_LIBRARY_MAJOR $major" include/rikkovan.h &&
        grep -x "#define RIKKOVAN_LIBRARY_MINOR $minor" include/rikkovan.h &&
        grep -x "#define RIKKOVAN_LIBRARY_PATCH $patch" include/rikkovan.h &&
        grep -x "version = \"$version\"" bindings/rust/Cargo.toml
}

# A line for each call that needs more stack than the header says, or of which it says nothing.
stack_is_within_the_header() {
    local call bytes stated
    while read -r call bytes; do
        stated=$(sed -n "s/^#define RIKKOVAN_STACK_${call#rikkovan_} //Ip" include/rikkovan.h)
        [ "${stated:-0}" -ge "$bytes" ] || echo "$call: $bytes bytes, ${stated:-none} in the header"
    done < <(tools/stack.sh "$library" || echo 'all 1') >"$work/deeper"
    diff /dev/null "$work/deeper"
}

# As C99, then as C++, it prints the same; it names no place of a byte.
firmware() {
    ! grep -n '_AT_' examples/*.[ch] || return
    in_c_and_cxx firmware examples/firmware.c examples/play.c >"$work/played" &&
        cat tests/c/firmware.expected{,} | diff - "$work/played"
}

player() {
    in_c_and_cxx play tests/c/play.c examples/play.c
}

library_has_every_call() {
    diff <(header_calls) \
        <(nm -g --defined-only "$library" | sed -n 's/.* T \(rikkovan_.*\)/\1/p' | sort)
}

plans_are_made_again() {
    tools/make-plans.sh "$work/plans" && diff -r "$work/plans" examples/plans
}

tasks_are_made_again() {
    tools/make-tasks.sh "$work/made-tasks" && diff -r "$work/made-tasks" examples/tasks
}

# Runs the daemon and compares its exit status.
daemon_ends_with() { # STATUS FILE..
    local wanted=$1 status=0
    shift
    "$daemon" "$@" || status=$?
    [ "$status" -eq "$wanted" ] || {
        echo "exit status $status, not $wanted"
        return 1
    }
}

daemon_on_plans() (
    export LC_ALL=C
    daemon_ends_with 1 examples/plans/*.plan >"$work/verdicts" &&
        diff tests/c/daemon.expected "$work/verdicts"
)

daemon_on_tasks() (
    export LC_ALL=C
    arguments=()
    for file in examples/tasks/*.tasks; do
        arguments+=(--tasks "$file")
    done
    daemon_ends_with 1 "${arguments[@]}" >"$work/verdicts" &&
        diff tests/c/daemon-tasks.expected "$work/verdicts"
)

daemon_on_plan_and_tasks() {
    local plan=examples/plans/default.plan tasks=examples/tasks/three.tasks
    daemon_ends_with 0 "$plan" --tasks "$tasks" >"$work/verdicts" &&
        grep -x "$plan  *accepted" "$work/verdicts" &&
        grep -x "$tasks  *accepted  *load 240000000 cycles per second" "$work/verdicts"
}

daemon_on_long_file() {
    { cat examples/plans/default.plan && head -c 10000 /dev/zero; } >"$work/long"
    daemon_ends_with 1 "$work/long" | grep 'refused  1 '
}

daemon_on_long_tasks() {
    head -c 9000 /dev/zero >"$work/long"
    daemon_ends_with 1 --tasks "$work/long" | grep 'refused  1 '
}

# An unreadable file is named on standard error, and the files after it are still checked.
daemon_on_unreadable() { # FILE
    daemon_ends_with 1 "$1" examples/plans/default.plan 2>"$work/errors" | grep 'accepted$' &&
        grep "^daemon: $1: " "$work/errors"
}

# Library and programs are there, so that make install has nothing to prove: with PROVE=false it could
# not.
installs() {
    make install PROVE=false PREFIX="$work/usr" &&
        builds_and_runs "$work/installed" "$cc" -std=c99 "${strict[@]}" -I"$work/usr/include" \
            tests/c/header.c -L"$work/usr/lib" -lrikkovan
}

# Without an environment, the installed programs need nothing of the Rattle kit.
installed_programs() {
    (cd "$work" && env -i usr/bin/lpset) 2>&1 | grep '^usage: lpset ' &&
        (cd "$work" && env -i usr/bin/rikkovan --version) | grep '^rikkovan ' &&
        cmp program/completion.bash "$work/usr/share/bash-completion/completions/rikkovan"
}

installs_below_destdir() {
    make install PROVE=false DESTDIR="$work/a stage" PREFIX=/usr &&
        cmp include/rikkovan.h "$work/a stage/usr/include/rikkovan.h" &&
        cmp "$library" "$work/a stage/usr/lib/librikkovan.a" &&
        grep -x 'prefix=/usr' "$work/a stage/usr/lib/pkgconfig/rikkovan.pc"
}

# Of all files, one that make install did not write is left.
uninstalls() {
    : >"$work/a stage/usr/lib/pkgconfig/other.pc"
    make uninstall DESTDIR="$work/a stage" PREFIX=/usr &&
        diff <(echo "$work/a stage/usr/lib/pkgconfig/other.pc") <(find "$work/a stage" ! -type d)
}

installed_daemon() (
    flags=$(PKG_CONFIG_PATH="$work/usr/lib/pkgconfig" pkg-config --cflags --libs rikkovan) || return
    daemon=$work/daemon
    # shellcheck disable=SC2086
    "$cc" -std=c99 "${strict[@]}" examples/daemon.c $flags -o "$daemon" &&
        daemon_on_plans && daemon_on_tasks
)

man_page_has_every_call() {
    diff <(header_calls) <(sed -n 's/^\.It Fn //p' man/rikkovan.3 | sort)
}

# The formatter writes nothing but warnings.
man_pages_format() {
    local page
    for page in "$work"/usr/share/man/man[13]/*; do
        groff -ww -mandoc -Tascii -z "$page" 2>&1 || return
    done >"$work/warnings"
    diff /dev/null "$work/warnings"
}

check 'header as C99' header_as_c c99
check 'header as C11' header_as_c c11
check 'header as C++11' header_as_cxx c++11
check 'header as C++17' header_as_cxx c++17
check_with nm 'the library exports the calls of the header and no other' library_has_every_call
check 'every call on a head gives an answer' every_call_on_a_head_gives_an_answer
check 'an answer is not taken for a number, nor a number for an answer' misuse_does_not_compile
check_with clang 'a call on the chip returns its word in registers' calls_fit_the_chip
check 'Makefile, header and Rust crate have one version' versions_agree
check 'names and small functions of the header' calls helpers
check 'plan check' calls plan_check
check 'readings' calls readings
check 'moments' calls moment
check 'LPSYS request' calls lpsys_request
check 'the other LPSYS calls' calls lpsys_calls
check 'calibration, init and reconfigure' calls clock_config
check 'load check, booking, release and look-up' calls tasks
check 'guarded change' calls change
check_with objdump 'no call needs more stack than the header says' stack_is_within_the_header
check 'calls on a painted stack' calls stack
check 'make-plans.sh writes the shipped plans' plans_are_made_again
check 'make-tasks.sh writes the shipped tasks' tasks_are_made_again
check 'daemon on the shipped plans' daemon_on_plans
check 'daemon on the shipped tasks' daemon_on_tasks
check 'daemon on a plan and tasks' daemon_on_plan_and_tasks
check 'daemon on an accepted plan ends with 0' daemon_ends_with 0 examples/plans/default.plan
check 'daemon on a refused plan ends with 1' daemon_ends_with 1 examples/plans/short.plan
check 'daemon on a file of 10,020 bytes' daemon_on_long_file
check 'daemon on tasks of 9,000 bytes' daemon_on_long_tasks
check 'daemon on a missing file' daemon_on_unreadable "$work/missing"
check 'daemon on a folder' daemon_on_unreadable "$work"
check 'daemon without a file ends with 2' daemon_ends_with 2
check 'daemon with --tasks alone ends with 2' daemon_ends_with 2 examples/plans/default.plan --tasks
check 'the example for firmware' firmware
check 'the player of journals' player
check 'make install' installs
check 'installed programs' installed_programs
check 'make install with DESTDIR' installs_below_destdir
check 'make uninstall with DESTDIR' uninstalls
check_with pkg-config 'daemon with the installed library' installed_daemon
check 'rikkovan.3 has every call of the header' man_page_has_every_call
check_with groff 'man pages without a warning' man_pages_format

all_passed
