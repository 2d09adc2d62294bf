#!/usr/bin/env bash
# Tests the program lpset, which `make target/bin/lpset` builds, on the heads that make-heads.sh writes.
# Prints a line for each test.
set -uo pipefail
cd "$(dirname "$0")/../.." || exit

lpset=$PWD/target/bin/lpset
heads=tests/lpset/heads
. tests/lib.sh lpset || exit

# Runs the program, and compares what it writes with standard input.
writes() { # ARGUMENT..
    cat >"$work/wanted"
    "$lpset" "$@" >"$work/written" 2>"$work/errors" || {
        echo "exit status $?"
        return 1
    }
    diff "$work/wanted" "$work/written" && diff /dev/null "$work/errors"
}

# The program writes nothing but how it is used, on standard error.
says_usage() {
    "$lpset" >"$work/written" 2>"$work/errors" || {
        echo "exit status $?"
        return 1
    }
    diff /dev/null "$work/written" && diff - "$work/errors" <<'END'
usage: lpset HEAD-FILE MHZ
END
}

# After the tests above, so that it also shows that no head was written to.
heads_are_made_again() {
    tests/lpset/make-heads.sh "$work/heads" && diff -r "$work/heads" "$heads"
}

[ -x "$lpset" ] || {
    echo "lpset: $lpset is missing; make target/bin/lpset builds it"
    exit 1
}

check 'the printed example' writes $heads/s48.head 20 <<'END'
steps 4
30 000006
26 020000
31 000162
28 000000
done 24000000
END
check '48 to 48 MHz' writes $heads/s48.head 48 <<'END'
steps 1
26 000000
done 48000000
END
check '25 MHz leaves 48' writes $heads/s48.head 25 <<'END'
steps 1
26 010000
done 48000000
END
check '48 to 7 MHz' writes $heads/s48.head 7 <<'END'
steps 4
30 000006
26 060000
31 000162
28 000000
done 8000000
END
check '48 to 1 MHz' writes $heads/s48.head 1 <<'END'
steps 4
30 000006
26 300000
31 000162
28 000000
done 1000000
END
check 'pdiv1 and pdiv2 stay' writes $heads/s48-pdivs.head 24 <<'END'
steps 4
30 000006
26 020305
31 000162
28 000000
done 24000000
END
check 'a head with a task' writes $heads/s48-task.head 20 <<'END'
steps 4
30 000006
26 020000
31 000162
28 000000
done 24000000
END
check '24 to 48 MHz, HCLK 48 MHz at the delay' writes $heads/d24.head 48 <<'END'
steps 4
29 000008
28 000001
48 002EE0
26 000000
done 48000000
END
check '24 to 48 MHz, HCLK 24 MHz at the delay' writes $heads/d24-slow.head 48 <<'END'
steps 4
29 000008
28 000001
48 001770
26 000000
done 48000000
END
check '24 to 12 MHz' writes $heads/d24.head 12 <<'END'
steps 1
26 040000
done 12000000
END
check '34 keeps the stores before the delay' writes $heads/d24-dbl96.head 48 <<'END'
steps 2
29 000008
28 000001
34 24000000
END
check 'no delay, so no 34' writes $heads/d24-dbl96.head 12 <<'END'
steps 1
26 040000
done 12000000
END
check 'source not ready, on S' writes $heads/s48-not-ready.head 20 <<'END'
steps 4
30 000006
26 020000
31 000162
28 000000
done -
END
check 'source not ready, on D' writes $heads/d24-not-ready.head 48 <<'END'
steps 1
26 000000
done -
END

# Requests that are not 1 to 48.
refused_request() { # NAME REQUEST
    check "$1" writes $heads/s48.head "$2" <<'END'
steps 0
15 48000000
END
}
refused_request 'request 0' 0
refused_request 'request 49' 49
refused_request 'request 4294967295' 4294967295
refused_request 'request 4294967297' 4294967297
refused_request 'request 4294967316' 4294967316
refused_request 'request 18446744073709551636' 18446744073709551636
refused_request 'request abc' abc
refused_request 'request 20x' 20x
refused_request 'request x20' x20
refused_request 'request with a blank' '20 '
refused_request 'request +20' +20
refused_request 'request -20' -20
refused_request 'request 2:' 2:
refused_request 'request 2/' 2/
refused_request 'empty request' ''
check 'missing request' writes $heads/s48.head <<'END'
steps 0
15 48000000
END
check '15 where the source is not ready' writes $heads/s48-not-ready.head 0 <<'END'
steps 0
15 -
END

# Requests that are 20 all the same.
twenty() { # NAME ARGUMENT..
    local name=$1
    shift
    check "$name" writes $heads/s48.head "$@" <<'END'
steps 4
30 000006
26 020000
31 000162
28 000000
done 24000000
END
}
twenty 'zeros before a request' 0000000000000000000000020
twenty 'a request of 100,000 digits' "$(printf '%0100000d' 20)"
twenty 'a third argument' 20 30

# Heads that are refused.
refused_head() { # NAME REFUSAL FILE
    check "$1" writes "$3" 20 <<END
steps 0
$2 -
END
}
head -c 254 $heads/s48.head >"$work/short"
{ cat $heads/s48.head && printf '\0'; } >"$work/long"
{ cat $heads/s48.head && head -c 4745 /dev/zero; } >"$work/longer"
: >"$work/empty"
refused_head 'missing file' 1 "$work/missing"
refused_head 'no file name' 1 ''
refused_head 'folder' 1 "$work"
refused_head 'empty file' 1 "$work/empty"
refused_head 'file of 254 bytes' 1 "$work/short"
refused_head 'file of 256 bytes' 1 "$work/long"
refused_head 'file of 5,000 bytes' 1 "$work/longer"
refused_head 'version 2' 2 $heads/version-2.head
refused_head 'a byte outside its codes' 3 $heads/supply-2.head
check 'the head is refused before the request' writes "$work/empty" 0 <<'END'
steps 0
1 -
END

check 'no argument' says_usage
check 'the heads stay, and make-heads.sh writes them' heads_are_made_again

all_passed
