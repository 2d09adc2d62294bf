#!/usr/bin/env bash
# Tests the program rikkovan, which make builds first: each command, each kind of error, and how a head
# is written; then the same under the sanitizers. Run by `make test-programs`. Prints a line for each
# test.
set -uo pipefail
cd "$(dirname "$0")/../.." || exit
export LC_ALL=C
unset MAKEFLAGS

cc=${CC:-cc}
heads=examples/heads
plans=examples/plans
tasks=examples/tasks
# shellcheck source=tests/lib.sh
. tests/lib.sh rikkovan || exit
# The user without rights, of one test, must get to the files.
chmod 711 "$work"

# Runs the program and compares its exit status.
ends_with() { # STATUS ARGUMENT..
    local wanted=$1 status=0
    shift
    "$program" "$@" >"$work/written" 2>"$work/errors" || status=$?
    [ "$status" -eq "$wanted" ] || {
        echo "exit status $status, not $wanted"
        cat "$work/errors"
        return 1
    }
}

# What it writes is on standard input, and nothing is on standard error.
writes() { # STATUS ARGUMENT..
    cat >"$work/wanted"
    ends_with "$@" && diff "$work/wanted" "$work/written" && diff /dev/null "$work/errors"
}

# Its last line is as given, and nothing is on standard error.
last_line() { # STATUS LINE ARGUMENT..
    local line=$2
    ends_with "$1" "${@:3}" && diff <(echo "$line") <(tail -n 1 "$work/written") &&
        diff /dev/null "$work/errors"
}

# It fails with one message, and writes nothing on standard output.
fails() { # MESSAGE ARGUMENT..
    local message=$1
    shift
    ends_with 2 "$@" && diff <(echo "rikkovan: $message") "$work/errors" &&
        diff /dev/null "$work/written"
}

# It says how it is used.
misused() { # USAGE ARGUMENT..
    local usage=$1
    shift
    ends_with 2 "$@" && diff /dev/null "$work/written" &&
        diff <(echo "usage: rikkovan $usage") <(tail -n 1 "$work/errors")
}

# A refusal number in the words of the header.
words() { # NUMBER
    sed -n '/^#define RIKKOVAN_REFUSALS/, /^$/ s/^    ROW('"$1"', [A-Z0-9_]*, "\(.*\)").*/\1/p' include/rikkovan.h
}

# The last line is the refusal, about the named file.
refused() { # NUMBER FILE ARGUMENT..
    last_line 1 "$2: refused $1: $(words "$1")" "${@:3}"
}

# The same, for a file of the wrong length; the message says what it should be.
refused_length() { # FILE MESSAGE ARGUMENT..
    ends_with 1 "${@:3}" && diff <(echo "rikkovan: $1: $2") "$work/errors" &&
        diff <(echo "$1: refused 1: $(words 1)") <(tail -n 1 "$work/written")
}

# A head with other bytes.
patched() { # NAME HEAD [PLACE BYTE]..
    local out=$work/$1
    cp "$heads/$2.head" "$out"
    shift 2
    while [ $# -gt 0 ]; do
        # shellcheck disable=SC2059
        printf "\\x$2" | dd of="$out" bs=1 seek="$1" conv=notrunc 2>/dev/null
        shift 2
    done
}

# Commands: what they print

commands_of_the_help() {
    ends_with 0 --help && sed -n 's/^  \([a-z-]*\)  *[A-Z].*/\1/p' "$work/written" >"$work/commands" &&
        [ -s "$work/commands" ]
}

man_page_has_every_command() {
    commands_of_the_help && diff "$work/commands" <(sed -n 's/^\.It Cm //p' man/rikkovan.1)
}

every_command_has_a_file() {
    commands_of_the_help && diff <(sort "$work/commands") \
        <(grep -l '^enum status run_' program/*.c | sed 's|.*/\(.*\)\.c|\1|; s/_/-/' | sort)
}

# What bash offers for the words of a command line, the last one unfinished.
completions() { # WORD..
    bash -c '. program/completion.bash && COMP_WORDS=("$@") && COMP_CWORD=$(($# - 1)) && _rikkovan &&
        printf "%s\n" "${COMPREPLY[@]}"' bash "$@"
}

completes() {
    commands_of_the_help && diff <(cat "$work/commands" && printf -- '--help\n--version\n') <(completions rikkovan '') &&
        diff <(echo release) <(completions rikkovan rel) &&
        diff <(printf -- '--write\n--help\n') <(completions rikkovan book -) &&
        diff <(echo --help) <(completions rikkovan check -) &&
        diff <(echo "$heads/no-hrc48.head") <(completions rikkovan change --write $heads/no-h)
}

# --write is offered to the commands that the help names.
completes_write() {
    local command
    commands_of_the_help || return
    while read -r command; do
        [[ $(completions rikkovan "$command" -) != *--write* ]] || printf ' %s' "$command"
    done <"$work/commands" >"$work/offered"
    diff <(sed -n 's/.* It goes with\(.*\)\.$/\1/p' "$work/written") <(cat "$work/offered" && echo)
}

version_of_the_makefile() {
    writes 0 --version <<<"rikkovan $(sed -n 's/^VERSION = //p' Makefile)"
}

# The verdicts of the daemon.
checks_the_plans() {
    ends_with 1 check $plans/*.plan && diff tests/c/daemon.expected "$work/written" &&
        diff "$work/errors" - <<END2
rikkovan: $plans/long.plan: 21 bytes where a plan has 20
rikkovan: $plans/short.plan: 19 bytes where a plan has 20
END2
}

checks_the_tasks() {
    ends_with 1 load $tasks/*.tasks &&
        diff <(sed 's| cycles per second|/s|' tests/c/daemon-tasks.expected) \
            <(sed -e 's| cycles/s|/s|' -e '/load/s/,//g' "$work/written") &&
        grep -q 'load 4,294,967,295,000,000 cycles/s$' "$work/written"
}

# Of the example heads it reads what the library's own tests do; here it is the page that counts.
shows() { # EXPECTED STATUS ARGUMENT..
    local expected=$1
    shift
    writes "$@" <"tests/rikkovan/$expected.expected"
}

# A head that is not fit in one way: both commands say in which.
says_unfit() { # FILE WORDS
    last_line 0 "$1: not fit: $2" read "$1" &&
        last_line 1 "$1: refused 37: $(words 37): $2" change "$1" $plans/default.plan
}

# The delay of a slow core is longer than what was asked for, by less than a cycle.
shows_a_slow_delay() {
    ends_with 0 lpsys "$work/slow" 48 && grep -q '^3   delay 48 cycles, 255\.000 us  ' "$work/written"
}

# On a head with the tasks 1 and 2: the status is that of a release, and no task is read behind a hit.
looks_up_as_release() {
    local id status
    for id in 0 1 2 3 255; do
        status=0
        "$program" release $heads/s240-tasks.head "$id" >"$work/released" 2>&1 || status=$?
        ends_with "$status" look-up $heads/s240-tasks.head "$id" &&
            diff <(echo "tasks read: $((id == 1 ? 1 : 2)) of 2") <(sed -n 's/.*, \(tasks read: .*\)/\1/p' "$work/written") || return
    done
}

takes_4096() {
    ends_with 0 change $heads/d48.head $plans/default.plan "$work/most" &&
        grep -q '^11  wait for DLL1, answers: 4096 ' "$work/written"
}

test_commands() {
    check 'rikkovan.1 has every command' man_page_has_every_command
    check 'every command has a file of its own' every_command_has_a_file
    check 'completion in bash' completes
    check 'completion of --write' completes_write
    check 'the version is that of the Makefile' version_of_the_makefile
    check 'check on the shipped plans' checks_the_plans
    check 'check on an accepted plan' writes 0 check $plans/default.plan <<<"$plans/default.plan  accepted"
    check 'load on the shipped tasks' checks_the_tasks
    check 'read' shows read 0 read $heads/s240-tasks.head
    check 'read of a head that is not fit' shows read-unfit 0 read $heads/no-hrc48.head
    check 'change' shows change 0 change $heads/d48.head $plans/default.plan $heads/second-poll.answers
    check 'change with a flash on DLL1' shows change-flash 0 change $heads/s240-flash.head $plans/dll1-144.plan $heads/second-poll.answers
    check 'change to D, without answers' shows change-to-d 0 change $heads/s240.head $plans/low-power-24.plan
    check 'change whose answers run out' shows change-36 1 change $heads/s240.head $plans/dll1-120.plan $heads/not-ready.answers
    check 'change with a load above it' shows change-39 1 change $heads/s240-tasks.head $plans/dll1-144.plan
    check 'book' shows book 0 book $heads/s240-tasks.head 9 81600 1000
    check 'book above HCLK' shows book-39 1 book $heads/s240-tasks.head 9 81601 1000
    check 'release' shows release 0 release $heads/s240-tasks.head 1
    check 'look-up' shows look-up 0 look-up $heads/s240-tasks.head 2
    check 'look-up of an id that no task has' writes 1 look-up $heads/s240-tasks.head 9 \
        <<<"$heads/s240-tasks.head: not booked, tasks read: 2 of 2"
    check 'look-up of id 0 on a head without tasks' writes 1 look-up $heads/d48.head 0 <<<"$heads/d48.head: not booked, tasks read: 0 of 0"
    check 'look-up of ids, held to release' looks_up_as_release
    check 'lpsys' shows lpsys 0 lpsys tests/lpset/heads/s48.head 20
    check 'lpsys with a delay' shows lpsys-up 0 lpsys tests/lpset/heads/d24.head 48
    patched slow d48 6 FF 78 02 86 00
    check 'a delay of a slow core' shows_a_slow_delay
}

test_refusals() {
    local number plan
    patched flash-1 d48 16 01
    patched flash-2 d48 17 01
    patched lpsys-source d48 77 00 106 00
    patched lpsys-supply d48 86 00
    check 'not fit: HCLK' says_unfit $heads/no-hrc48.head 'HCLK cannot be read'
    check 'not fit: the rails' says_unfit $heads/d48-low-volts.head 'HCLK is above the rail limit'
    check 'not fit: flash 1' says_unfit "$work/flash-1" 'flash 1 is on a DLL that is off'
    check 'not fit: flash 2' says_unfit "$work/flash-2" 'flash 2 is on a DLL that is off'
    check 'not fit: the LPSYS source' says_unfit "$work/lpsys-source" 'the clock of the LPSYS select is not ready'
    check 'not fit: the LPSYS supply' says_unfit "$work/lpsys-supply" 'the LPSYS HCLK is above 24 MHz on supply D'

    while read -r number plan; do
        check "change to $plan.plan" refused "$number" $plans/"$plan".plan change $heads/d48.head $plans/"$plan".plan
    done <<'END2'
1 length-field
2 version-2
3 reserved-code
4 core-dll1-absent
5 core-dbl96
6 mpi1-dll1-absent
7 mpi2-dll2-absent
8 usb-dll2-absent
9 usb-not-60
10 core-too-slow
11 hclk-too-fast
12 pdiv1-zero
13 pdiv2-four
14 dll2-too-fast
END2
    patched version-2 d48 2 02
    patched code d48 3 01
    for number in read 'change H P' 'book H 1 1 1' 'release H 1' 'look-up H 1' 'lpsys H 24'; do
        plan=${number/ H/ $work/version-2}
        plan=${plan/ P/ $plans/short.plan}
        [ "$number" = read ] && plan="read $work/version-2"
        # shellcheck disable=SC2086
        check "${number%% *} on a head of version 2" refused 2 "$work/version-2" $plan
    done
    check 'change without HXT48' refused 38 $heads/d48-no-hxt48.head change $heads/d48-no-hxt48.head $plans/default.plan
    check 'change without answers' refused 36 $heads/d48.head change $heads/d48.head $plans/default.plan
    check 'book of id 0' refused 16 $heads/d48.head book $heads/d48.head 0 1 1
    check 'book of an id in use' refused 40 $heads/s240-tasks.head book $heads/s240-tasks.head 2 1 1
    check 'book without HCLK' refused 34 $heads/no-hrc48.head book $heads/no-hrc48.head 9 1 1
    check 'release of an unknown id' refused 42 $heads/d48.head release $heads/d48.head 9
    check 'lpsys of 0 MHz' refused 15 $heads/d48.head lpsys $heads/d48.head 0
    check 'lpsys of 49 MHz' refused 15 $heads/d48.head lpsys $heads/d48.head 49
    check 'lpsys of 2^32 - 1 MHz' refused 15 $heads/d48.head lpsys $heads/d48.head 4294967295

    cp $heads/d48.head "$work/x.plan"
    cp $plans/default.plan "$work/x.head"
    check 'a head in place of a plan' refused_length "$work/x.plan" '255 bytes where a plan has 20: is it a head?' \
        change $heads/d48.head "$work/x.plan"
    check 'a plan in place of a head' refused_length "$work/x.head" '20 bytes where a head has 255: is it a plan?' \
        change "$work/x.head" "$work/x.plan"
    check 'read on an empty file' refused_length "$work/none" '0 bytes where a head has 255' read "$work/none"
}

test_errors() {
    check 'read on a missing file' fails 'nosuch.head: No such file or directory' read nosuch.head
    check 'read on a folder' fails "$heads: Is a directory" read $heads
    check 'change to a missing plan' fails 'nosuch.plan: No such file or directory' change $heads/d48.head nosuch.plan
    check 'change with missing answers' fails 'nosuch: No such file or directory' \
        change $heads/d48.head $plans/default.plan nosuch
    check 'change with half an answer' fails "$work/half: 3 bytes where each answer has 2" \
        change $heads/d48.head $plans/default.plan "$work/half"
    check 'change with 4,096 answers' takes_4096
    check 'change with 4,097 answers' refused 18 "$work/many" change $heads/d48.head $plans/default.plan "$work/many"
    check 'a file without an end' fails '/dev/zero: File too large' read /dev/zero
    check 'check on a missing and an accepted plan' ends_with 2 check nosuch.plan $plans/default.plan
    check 'the plan behind the missing one is checked' grep -q accepted "$work/written"
    check 'an id above 255' fails 'ID: "256" is not a number from 0 to 255' book $heads/d48.head 256 1 1
    check 'cycles of 2^32' fails 'CYCLES: "4294967296" is not a number from 0 to 4294967295' book $heads/d48.head 1 4294967296 1
    check 'a period in words' fails 'PERIOD: "1ms" is not a number from 0 to 4294967295' book $heads/d48.head 1 1 1ms
    check 'a number of 40 digits' fails 'MHZ: "1000000000000000000000000000000000000000" is not a number from 0 to 4294967295' \
        lpsys $heads/d48.head 1000000000000000000000000000000000000000
    check 'no number' fails 'ID: "" is not a number from 0 to 255' release $heads/d48.head ''
    check 'an id of 256 looked up' fails 'ID: "256" is not a number from 0 to 255' look-up $heads/d48.head 256
    check 'look-up on a missing file' fails 'nosuch.head: No such file or directory' look-up nosuch.head 1
    check 'no argument' misused 'COMMAND OPERAND..; rikkovan --help lists the commands'
    check 'an unknown command' fails 'no command moments; rikkovan --help lists them' moments
    check 'check without a plan' misused 'check PLAN..' check
    check 'read of two heads' misused 'read HEAD' read $heads/d48.head $heads/s240.head
    check 'change without a plan' misused 'change [--write] HEAD PLAN [ANSWERS]' change $heads/d48.head
    check 'read with --write' misused 'read HEAD' read --write $heads/d48.head
    check 'look-up with --write' misused 'look-up HEAD ID' look-up --write $heads/d48.head 1
    check 'an unknown option' misused 'release [--write] HEAD ID' release --force $heads/d48.head 1
    check '--help behind a command' writes 0 book --help <<<'usage: rikkovan book [--write] HEAD ID CYCLES PERIOD'
    check 'a name that begins with -' in_work_folder ends_with 0 check -- -x
}

in_work_folder() {
    (
        program=$PWD/$program
        cp $plans/default.plan "$work/-x" && cd "$work" && "$@"
    )
}

# Output that does not get out is said, and the head is not written then.
full_output() { # ARGUMENT..
    local status=0
    "$program" "$@" >/dev/full 2>"$work/errors" || status=$?
    [ "$status" -eq 2 ] && diff <(echo 'rikkovan: standard output: No space left on device') "$work/errors"
}

closed_output() {
    local status=0
    "$program" read $heads/d48.head >&- 2>"$work/errors" || status=$?
    [ "$status" -eq 2 ] && diff <(echo 'rikkovan: standard output: Bad file descriptor') "$work/errors"
}

full_output_keeps_the_head() {
    begin_writing && full_output book --write "$head" 9 1 1000 && head_is_as_it_was
}

test_output() {
    local command
    for command in --help --version "check $plans/default.plan" "load $tasks/two.tasks" "read $heads/d48.head" \
        "change $heads/d48.head $plans/default.plan" "book $heads/d48.head 1 1 1" "release $heads/s240-tasks.head 1" \
        "look-up $heads/s240-tasks.head 1" "lpsys $heads/d48.head 24"; do
        # shellcheck disable=SC2086
        check "a full disk under ${command%% *}" full_output $command
    done
    # shellcheck disable=SC2046
    check 'a full disk under 1,000 verdicts' full_output check $(yes $plans/default.plan | head -n 1000)
    check 'a full disk under book --write' full_output_keeps_the_head
    check 'standard output closed' closed_output
}

# Writing

folder=$work/folder
head=$folder/x.head

begin_writing() {
    rm -rf "$folder" "$work/link"
    mkdir "$folder" && cp $heads/s240-tasks.head "$head" && chmod 640 "$head"
}

# The folder has the head alone.
nothing_is_left() { diff <(echo x.head) <(ls -A "$folder"); }

head_is_as_it_was() { cmp $heads/s240-tasks.head "$head" && nothing_is_left; }

# With task 9 and its length, and 640 as before.
head_is_booked() {
    diff <(echo 640) <(stat -c %a "$head") && diff <(echo 255) <(stat -c %s "$head") && nothing_is_left &&
        last_line 1 "$head: refused 40: $(words 40)" book "$head" 9 1 1000
}

books() { begin_writing && ends_with 0 book --write "$head" 9 1 1000 && head_is_booked; }

# A head goes through every command that writes, and back to what it was but for bytes past the record.
writes_what_it_shows() {
    begin_writing && ends_with 0 change --write "$head" $plans/default.plan $heads/second-poll.answers &&
        cmp $heads/s240-tasks.head "$head" &&
        ends_with 0 lpsys "$head" 24 --write && ! cmp -s $heads/s240-tasks.head "$head" &&
        ends_with 0 release --write "$head" 1 && ends_with 0 change "$head" --write $plans/low-power-48.plan &&
        ends_with 0 read "$head" && grep -qx 'HCLK  *48,000,000' "$work/written" &&
        grep -qx 'LPSYS HCLK  *24,000,000' "$work/written" && nothing_is_left
}

keeps_what_36_keeps() {
    begin_writing && ends_with 1 change --write "$head" $plans/default.plan $heads/not-ready.answers &&
        ends_with 0 read "$head" && grep -qx 'HCLK  *48,000,000' "$work/written" && nothing_is_left
}

# A file that would be replaced has another number.
refusal_leaves_the_file() {
    local before
    begin_writing && before=$(stat -c %i "$head") && ends_with 1 release --write "$head" 9 &&
        diff <(echo "$before") <(stat -c %i "$head") && head_is_as_it_was
}

no_option_leaves_the_file() {
    begin_writing && ends_with 0 book "$head" 9 1 1000 && head_is_as_it_was
}

through_a_link() {
    begin_writing && ln -s "$head" "$work/link" && ends_with 0 book --write "$work/link" 9 1 1000 &&
        [ -L "$work/link" ] && head_is_booked
}

from_the_folder() {
    begin_writing || return
    (
        program=$PWD/$program
        cd "$folder" && ends_with 0 book --write x.head 9 1 1000
    ) && head_is_booked
}

not_written() { # CAUSE
    diff <(echo "rikkovan: $head: not written: $1") "$work/errors" && head_is_as_it_was
}

# The limit is on the size of files that a program may write.
above_the_limit() {
    local status=0
    begin_writing || return
    (ulimit -f 0 && "$program" book --write "$head" 9 1 1000) 2>&1 >/dev/null | cat >"$work/errors" || status=$?
    [ "$status" -eq 2 ] && not_written 'File too large'
}

# A file system with room for one file alone.
on_a_full_disk() {
    mkdir -p "$folder"
    # shellcheck disable=SC2016
    unshare -rm sh -c 'mount -t tmpfs -o size=4k none "$1" && cp "$3" "$1/x.head" || exit
        status=0; "$2" book --write "$1/x.head" 9 1 1000 || status=$?
        [ "$status" -eq 2 ] && cmp "$3" "$1/x.head" && [ "$(ls -A "$1")" = x.head ]' \
        sh "$folder" "$program" $heads/s240-tasks.head >/dev/null 2>"$work/errors" &&
        diff <(echo "rikkovan: $head: not written: No space left on device") "$work/errors"
}

as_nobody() { setpriv --reuid 65534 --regid 65534 --clear-groups "$@"; }

may_be_another_user() { chown 1234:4321 "$work/none" && as_nobody test -r "$work/none"; }

# For a user who may read the head, and may not write to its folder.
in_a_folder_of_others() {
    local status=0
    begin_writing && chmod 644 "$head" && chmod 755 "$folder" && cp "$program" "$work/program" || return
    as_nobody "$work/program" book --write "$head" 9 1 1000 >/dev/null 2>"$work/errors" || status=$?
    [ "$status" -eq 2 ] && not_written 'Permission denied'
}

keeps_the_owner() {
    begin_writing && chown 1234:4321 "$head" && ends_with 0 book --write "$head" 9 1 1000 &&
        diff <(echo 1234:4321) <(stat -c %u:%g "$head") && head_is_booked
}

test_writing() {
    check 'book --write' books
    check 'what is written is what is shown' writes_what_it_shows
    check 'what a refusal keeps is written' keeps_what_36_keeps
    check 'a refusal leaves the file' refusal_leaves_the_file
    check 'without --write the file stays' no_option_leaves_the_file
    check 'a link to the file stays' through_a_link
    check 'a name without a folder' from_the_folder
    check 'files that may not grow' above_the_limit
    if unshare -rm mount -t tmpfs -o size=4k none "$work" 2>/dev/null; then
        check 'a full disk under the head' on_a_full_disk
    else
        echo 'rikkovan: skipped: a full disk under the head (no mount)'
    fi
    if may_be_another_user 2>/dev/null; then
        check 'a folder that may not be written' in_a_folder_of_others
        check 'the owner stays' keeps_the_owner
    else
        echo 'rikkovan: skipped: a folder that may not be written, the owner (no other user)'
    fi
}

# Faults

fault() { # CALL
    begin_writing && FAULT=$1 ends_with 2 book --write "$head" 9 1 1000 &&
        not_written 'No space left on device'
}

# A signal that can wait does: the head is written first.
fault_term() { # CALL
    begin_writing && SIGNAL=TERM FAULT=$1 ends_with 143 book --write "$head" 9 1 1000 2>/dev/null && head_is_booked
}

# The file is the one or the other, and a new file beside it does no harm to the next call.
fault_kill() { # CALL
    begin_writing && SIGNAL=KILL FAULT=$1 ends_with 137 book --write "$head" 9 1 1000 2>/dev/null &&
        cmp $heads/s240-tasks.head "$head" && ends_with 0 book --write "$head" 9 1 1000 &&
        rm -f "$folder"/.rikkovan.* && head_is_booked
}

test_faults() {
    local call
    for call in mkstemp write fchmod fsync close rename; do
        check "$call fails" fault "$call"
        check "a signal at $call" fault_term "$call"
        check "killed at $call" fault_kill "$call"
    done
}

# Without a file of answers, with half an answer, one too many and the most.
printf '\0\0\1' >"$work/half"
head -c 8194 /dev/zero >"$work/many"
{ head -c 8190 /dev/zero && printf '\0\1'; } >"$work/most"
: >"$work/none"

heads_are_made_again() {
    tools/make-heads.sh "$work/heads" && diff -r "$work/heads" $heads
}

test_all() {
    test_commands
    test_refusals
    test_errors
    test_output
    test_writing
}

sanitizers_work() {
    echo 'int main(void) { return 0; }' >"$work/empty.c"
    "$cc" -fsanitize=address,undefined "$work/empty.c" -o "$work/empty" && "$work/empty"
}

make --no-print-directory CC="$cc" build/rikkovan build/rikkovan-faults || exit
program=build/rikkovan
test_all
program=build/rikkovan-faults
test_faults
if sanitizers_work >/dev/null 2>&1; then
    make --no-print-directory CC="$cc" build/rikkovan-sanitized || exit
    suite='rikkovan, sanitized'
    program=build/rikkovan-sanitized
    test_all
else
    echo "rikkovan: skipped: the same under the sanitizers ($cc cannot link them)"
fi
check 'the files stay, and make-heads.sh writes them' heads_are_made_again

all_passed
