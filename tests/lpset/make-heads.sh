#!/bin/sh
# make-heads.sh [DIR]: writes the heads that run.sh uses to DIR, by default tests/lpset/heads.
set -eu
cd "$(dirname "$0")/../.."
out=${1:-tests/lpset/heads}
mkdir -p "$out"

# put PLACE BYTE..: writes the bytes, given in hex, into the head that was begun last.
put() {
    place=$1
    shift
    for byte; do
        octal=$(printf '%03o' "0x$byte")
        # shellcheck disable=SC2059
        printf "\\$octal"
    done | dd of="$file" bs=1 seek="$place" conv=notrunc 2>/dev/null
}

# register NUMBER A B C
register() {
    number=$1
    shift
    put $((3 * number)) "$@"
}

# ready HXT48 HRC48 LPSYS-HXT48
ready() {
    put 105 "$@"
}

# begin NAME: LPSYS at 48 MHz on supply S, HPSYS at 48 MHz on D, both on HXT48, and no task.
begin() {
    file=$out/$1.head
    dd if=/dev/zero of="$file" bs=255 count=1 2>/dev/null
    put 0 00 6D 01
    register 1 00 00 01
    register 2 01 00 00
    register 12 00 00 01
    register 15 00 00 0F
    register 16 00 00 0F
    register 25 00 00 01
    register 28 00 00 01
    register 29 00 00 08
    register 30 00 00 08
    register 31 00 11 62
    ready 01 01 01
}

# lpsys_at_24: the head that was begun last has LPSYS at 24 MHz on supply D.
lpsys_at_24() {
    register 26 02 00 00
    register 28 00 00 00
    register 29 00 00 06
    register 30 00 00 06
    register 31 00 01 62
}

begin s48

# pdiv1 and pdiv2 of LPSYS are not 0.
begin s48-pdivs
register 26 00 03 05

# A task, so that the record is longer.
begin s48-task
put 0 00 76 01
put 110 01
put 111 07 00 01 D4 C0 00 00 03 E8

begin d24
lpsys_at_24

# HPSYS HCLK is 24 MHz.
begin d24-slow
lpsys_at_24
register 2 02 00 00

# The core is on DBL96, so that HPSYS HCLK does not read.
begin d24-dbl96
lpsys_at_24
register 1 00 00 02

# LPSYS is on HXT48, which is not ready. The core is on HRC48.
begin s48-not-ready
register 1 00 00 00
ready 00 01 00

begin d24-not-ready
lpsys_at_24
register 1 00 00 00
ready 00 01 00

begin version-2
put 2 02

# The LPSYS supply is neither 0 nor 1.
begin supply-2
register 28 00 00 02
