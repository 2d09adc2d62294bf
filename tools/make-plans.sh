#!/bin/sh
# make-plans.sh [DIR]: writes the example plans to DIR, by default examples/plans.
# examples/README.md says what each one is.
set -eu
cd "$(dirname "$0")/.."
out=${1:-examples/plans}
mkdir -p "$out"

# plan NAME BYTE..: writes the bytes, given in hex, to NAME.plan.
plan() {
    name=$1
    shift
    for byte; do
        octal=$(printf '%03o' "0x$byte")
        # shellcheck disable=SC2059
        printf "\\$octal"
    done >"$out/$name.plan"
}

# Columns: length, version; core, hdiv, pdiv1, pdiv2; DLL1; DLL2; calibrate, usb;
# wdt, USB source, peripheral, mpi1, mpi2.

# Accepted.
plan default            00 12 01  03 01 01 06  01 09 00  01 0B 00  01 01  01 00 01 00 02
plan dll1-120           00 12 01  03 01 00 04  01 04 00  01 0B 00  01 01  01 00 01 00 02
plan dll1-144           00 12 01  03 01 01 05  01 05 00  01 09 00  01 01  01 01 01 00 02
plan low-power-24       00 12 01  00 02 00 02  00 00 00  00 00 00  01 00  00 00 00 00 00
plan low-power-48       00 12 01  01 01 00 03  00 00 00  00 00 00  01 00  01 00 01 00 00
plan pdiv2-five         00 12 01  03 01 01 05  01 09 00  01 0B 00  01 01  01 00 01 00 02

# Refused.
plan short              00 12 01  03 01 01 06  01 09 00  01 0B 00  01 01  01 00 01 00
plan long               00 12 01  03 01 01 06  01 09 00  01 0B 00  01 01  01 00 01 00 02 00
plan length-field       00 13 01  03 01 01 06  01 09 00  01 0B 00  01 01  01 00 01 00 02
plan version-2          00 12 02  03 01 01 06  01 09 00  01 0B 00  01 01  01 00 01 00 02
plan reserved-code      00 12 01  03 01 01 06  01 09 00  01 0B 00  01 01  01 00 01 00 03
plan absent-dll-stage   00 12 01  03 01 01 06  01 09 00  00 0B 00  01 01  01 00 01 00 00
plan core-dll1-absent   00 12 01  03 01 01 06  00 00 00  01 0B 00  01 01  01 00 01 00 02
plan core-dbl96         00 12 01  02 01 01 06  01 09 00  01 0B 00  01 00  01 00 01 00 02
plan mpi1-dll1-absent   00 12 01  01 01 00 03  00 00 00  00 00 00  01 00  01 00 01 01 00
plan mpi2-dll2-absent   00 12 01  03 01 01 06  01 09 00  00 00 00  01 01  01 00 01 00 02
plan usb-dll2-absent    00 12 01  03 01 01 06  01 09 00  00 00 00  01 01  01 01 01 00 00
plan usb-not-60         00 12 01  03 01 01 06  01 0A 00  01 0B 00  01 01  01 00 01 00 02
plan core-too-slow      00 12 01  03 01 01 06  01 00 01  01 0B 00  01 00  01 00 01 00 02
plan hclk-too-fast      00 12 01  03 01 01 06  01 0A 00  01 0B 00  01 00  01 00 01 00 02
plan pdiv1-zero         00 12 01  03 01 00 06  01 09 00  01 0B 00  01 01  01 00 01 00 02
plan pdiv2-four         00 12 01  03 01 01 04  01 09 00  01 0B 00  01 01  01 00 01 00 02
plan dll2-too-fast      00 12 01  03 01 01 06  01 09 00  01 0C 00  01 01  01 00 01 00 02
plan dll2-halved        00 12 01  03 01 01 06  01 09 00  01 0C 01  01 01  01 00 01 00 02
