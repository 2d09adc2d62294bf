#!/usr/bin/env bash
# Runs the fuzz target for some seconds, then with faults that it must find. Run by
# `make test-fuzz`, which builds the library first. Prints a line for each test.
set -uo pipefail
cd "$(dirname "$0")/../.." || exit
unset MAKEFLAGS

cc=${CC:-cc}
. tests/lib.sh fuzz || exit

sanitizers_work() {
    echo 'int main(void) { return 0; }' >"$work/empty.c"
    "$cc" -fsanitize=address,undefined "$work/empty.c" -o "$work/empty" && "$work/empty"
}

hostile_calls() {
    build/fuzz --runs 60000 --seed 1 >"$work/counts"
}

makes_every_call() {
    diff <(header_calls) \
        <(sed -n 's/^\(rikkovan_[a-z0-9_]*\) .* calls, .*/\1/p' "$work/counts" | sort)
}

gets_every_refusal() {
    diff /dev/null <(grep ', never' "$work/counts")
}

# The declarations of the header, one in a line.
declarations() {
    awk '/^uint64_t rikkovan_/, /;$/ { printf "%s%s", $0, /;$/ ? "\n" : " " }' include/rikkovan.h
}

# The calls that a comment in the header's table of refusals means.
calls_meant() { # COMMENT
    case $1 in
    'every call') header_calls ;;
    'every call but '*) header_calls | grep -vx "${1#every call but }" ;;
    'calls that are lent '*) declarations | grep "${1##* }" | sed 's/^uint64_t \([a-z0-9_]*\)(.*/\1/' ;;
    *) grep -o 'rikkovan_[a-z0-9_]*' <<<"${1%%;*}" ;;
    esac
}

# A line for each refusal and call, by the table.
refusals_stated() {
    local line comment='' number=''
    while IFS= read -r line; do
        case $line in
        '    /*'*)
            [ -z "$number" ] || comment=''
            number=''
            line=${line#*/\* }
            comment+=${line%% \*/*}
            ;;
        '    ROW('*)
            number=${line#*(}
            number=${number%%,*}
            calls_meant "$comment" | sed "s/^/$number /"
            ;;
        esac
    done < <(sed -n '/^#define RIKKOVAN_REFUSALS/, /^$/p' include/rikkovan.h) | sort
}

# The same by the refusals that came up.
refusals_given() {
    local call rest refusal
    while read -r call rest; do
        for refusal in ${rest#* refused}; do
            echo "${refusal%%:*} $call"
        done
    done < <(grep '^rikkovan_' "$work/counts") | sort
}

table_names_the_calls() {
    diff <(refusals_stated) <(refusals_given)
}

# A run fails, and so does the small input that is printed for it.
finds() { # FAULT
    local again
    ! FAULT=$1 build/fuzz-faults --runs 5000 --seed 1 >"$work/found" 2>&1 || return
    again=$(sed -n 's/^fuzz: run it again: //p' "$work/found")
    [ -n "$again" ] || return
    # shellcheck disable=SC2086
    ! FAULT=$1 $again
}

sanitizers_work >/dev/null 2>&1 || {
    echo "fuzz: skipped: $cc cannot link the address sanitizer"
    exit 0
}
make --no-print-directory CC="$cc" build/fuzz build/fuzz-faults || exit

check 'hostile calls' hostile_calls
check 'every call of the header is made' makes_every_call
check 'every refusal comes up' gets_every_refusal
check 'the table of the header names the calls that give each refusal' table_names_the_calls
check 'no fault' build/fuzz-faults --runs 1000 --seed 1
while read -r fault; do
    check "a change that ${fault//_/ }" finds "$fault"
done < <(sed -n 's/^    FAULT(\(.*\)),$/\1/p' tests/fuzz/faults.c)

all_passed
