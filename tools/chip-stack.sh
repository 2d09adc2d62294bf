#!/usr/bin/env bash
# The stack that each call of target/chip/librikkovan.a needs: a line with its name, the bytes from its first push down on the deepest
# way through its functions, and that way with the bytes of each. The frames are those that the compiler states; what the
# C library's helpers (__aeabi_..) need is not in it.
set -euo pipefail
cd "$(dirname "$0")/.."

awk '
    function fail(what) { print "chip-stack: " what >"/dev/stderr"; failed = 1; exit 1 }
    # The bytes that a function needs, and its deepest way.
    function need(name,    callees, n, k, most, deepest) {
        if (name in needed) return needed[name]
        if (name ~ /^__aeabi_/) return 0
        if (!(name in frame)) fail("no frame is stated for " name)
        if (name in open_) fail("recursion in " name)
        open_[name] = 1
        n = split(calls[name], callees, " ")
        for (k = 1; k <= n; k++)
            if (need(callees[k]) > most) { most = need(callees[k]); deepest = ", " way[callees[k]] }
        way[name] = name " " frame[name] deepest
        return needed[name] = frame[name] + most
    }
    NR == FNR {
        name = $1
        sub(/^[^:]*:/, "", name)
        if ($3 != "static") fail("the frame of " name " is " $3)
        frame[name] = $2
        next
    }
    /^\t\.type\t/ { name = $2; sub(/,.*/, "", name); gsub(/"/, "", name) }
    $1 ~ /^(blx|bx)/ && $2 != "lr" { fail("a call through a pointer in " name) }
    $1 ~ /^b/ && $1 !~ /^(bic|bfi|bfc|bfx|bkpt|bx)/ && $2 !~ /^\.L/ { callee = $2; gsub(/"/, "", callee); calls[name] = calls[name] " " callee }
    END {
        if (failed) exit 1
        for (name in frame) if (name ~ /^rikkovan_/) print name, need(name), way[name]
    }' target/chip/rikkovan.su target/chip/rikkovan.s | sort
