#!/bin/sh
# make-heads.sh [DIR]: writes the example heads, and answers for a guarded change of one, to DIR, by
# default examples/heads. examples/README.md says what each one is.
set -eu
cd "$(dirname "$0")/.."
out=${1:-examples/heads}
mkdir -p "$out"

. tools/bytes.sh

# put PLACE NUMBER COUNT: writes the number into the head that was begun last.
put() {
    bytes "$2" "$3" | dd of="$file" bs=1 seek="$1" conv=notrunc 2>/dev/null
}

# register NUMBER VALUE
register() {
    put $((3 * $1)) "$2" 3
}

# begin NAME: HPSYS at 48 MHz on supply D, LPSYS at 48 MHz on S, both on HXT48, which is ready, as is
# HRC48; DLL1 off, DLL2 at 288 MHz, flash 1 on the peripheral clock, flash 2 on DLL2; no task.
begin() {
    file=$out/$1.head
    dd if=/dev/zero of="$file" bs=255 count=1 2>/dev/null
    put 0 109 2
    put 2 1 1
    register 1 1
    register 2 0x010003
    register 4 0x01000B
    register 5 2
    register 6 1
    register 12 1
    register 15 10
    register 16 8
    register 17 0x001161
    register 25 1
    register 28 1
    register 29 8
    register 30 8
    register 31 0x001162
    put 105 0x010101 3
}

# at_240: the head that was begun last has HPSYS at 240 MHz on S, as the default plan has it.
at_240() {
    register 1 3
    register 2 0x010106
    register 3 0x010009
    register 11 0x000101
    register 12 0
    register 13 15
    register 14 13
    register 17 0x003043
}

# tasks [CYCLES]..: books tasks 1, 2 and so on of so many cycles in a millisecond.
tasks() {
    put 0 $((109 + 9 * $#)) 2
    put 110 $# 1
    id=1
    for cycles; do
        place=$((102 + 9 * id))
        put "$place" "$id" 1
        put $((place + 1)) "$cycles" 4
        put $((place + 5)) 1000 4
        id=$((id + 1))
    done
}

# answers NAME [ANSWER]..: writes these to NAME.answers.
answers() {
    name=$1
    shift
    for answer; do
        bytes "$answer" 2
    done >"$out/$name.answers"
}

begin d48

begin s240
at_240

# 158,400,000 cycles in a second: 66 percent of 240 MHz, 110 percent of 144 MHz.
begin s240-tasks
at_240
tasks 120000 38400

# Flash 1 is on DLL1.
begin s240-flash
at_240
register 5 0x000102

# HXT48 is not ready; both systems are on HRC48.
begin d48-no-hxt48
register 1 0
register 25 0
put 105 0 1

# At 48 MHz on the voltages of 24 MHz: not fit.
begin d48-low-volts
register 15 9
register 16 6

# Both systems are on HRC48, which is not ready; flash 1 has the reserved code. Two tasks.
begin no-hrc48
register 1 0
register 5 0x000300
register 25 0
register 28 0
put 106 0 1
tasks 20000 10000

answers second-poll 0 1
answers not-ready 0 0
