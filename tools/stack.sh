#!/usr/bin/env bash
# The stack that each call of an archive for x86-64 needs: a line with its name and the bytes, from the return address of the
# call down, on the deepest way through the machine code. What memcpy takes below its own return address is not in it.
set -euo pipefail

archive=${1:-target/staticlib/librikkovan.a}

# How far the stack pointer is below the return address is followed from instruction to instruction. Of a jump through a table the
# targets are not known; they are what no other instruction leads to, at the depth of that jump.
objdump -dr -w --no-show-raw-insn "$archive" | awk '
    function hex(digits,    number, k) {
        for (k = 1; k <= length(digits); k++)
            number = number * 16 + index("0123456789abcdef", substr(digits, k, 1)) - 1
        return number + 0
    }
    function fail(what) { print "stack: " what >"/dev/stderr"; failed = 1; exit 1 }
    # What an instruction adds to the depth.
    function step(i,    bytes) {
        if (op[i] == "push") return 8
        if (op[i] == "pop") return -8
        if (rest[i] !~ /,%rsp$/) return 0
        bytes = rest[i]
        if ((op[i] != "sub" && op[i] != "add") || sub(/^\$0x/, "", bytes) == 0) fail("not known: " op[i] " " rest[i])
        sub(/,.*/, "", bytes)
        bytes = substr(bytes, 1, 8) == "ffffffff" ? hex(substr(bytes, 9)) - 4294967296 : hex(bytes)
        return op[i] == "sub" ? bytes : -bytes
    }
    # Goes on from an instruction at a depth, as far as no other way has come.
    function follow(i, at) {
        while (!(i in depth)) {
            if (i == "" || owner[i] != owner[i - 1] && i != first[owner[i]]) fail("no way on in " owner[i])
            depth[i] = at
            at += step(i)
            if (op[i] == "ret" || op[i] == "ud2") return
            if (op[i] == "jmp" && rest[i] ~ /^\*/) { by_table[owner[i]] = at; return }
            if (op[i] ~ /^j/ && target[i] == "") follow(place[owner[i], goal[i]], at)
            if (op[i] == "jmp") return
            i++
        }
        if (depth[i] != at) fail("two depths in " owner[i])
    }
    # The bytes that a function needs below its return address.
    function need(name,    i, most, bytes) {
        if (name in needed) return needed[name]
        if (!(name in first)) return 0
        if (name in open_) fail("recursion in " name)
        open_[name] = 1
        for (i = first[name]; owner[i] == name; i++) {
            if (!(i in depth)) continue
            bytes = depth[i] + (op[i] == "push" || op[i] == "sub" ? step(i) : 0)
            if (target[i] != "") bytes = depth[i] + (op[i] == "call" ? 8 : 0) + need(target[i])
            if (bytes > most) most = bytes
        }
        return needed[name] = most + 0
    }
    /^[0-9a-f]+ <.*>:$/ { name = $2; gsub(/^<|>:$/, "", name); first[name] = n + 1; names[++count] = name; next }
    /^ +[0-9a-f]+:\t/ {
        n++
        owner[n] = name
        address = $1; sub(/:/, "", address)
        place[name, address] = n
        op[n] = $2; rest[n] = $3; goal[n] = $3
        if (op[n] ~ /^(call|j)/ && match($0, /R_X86_64_(PLT32|PC32)\t/)) {
            target[n] = substr($0, RSTART + RLENGTH)
            sub(/-0x4$/, "", target[n]); sub(/^\.text\./, "", target[n])
        } else if (op[n] == "call") fail("a call through a pointer in " name)
    }
    END {
        if (failed) exit 1
        for (k = 1; k <= count; k++) {
            follow(first[names[k]], 0)
            for (i = first[names[k]]; owner[i] == names[k]; i++) {
                if (i in depth || op[i] ~ /^(nop|data16|cs|xchg)/) continue
                if (!(names[k] in by_table)) fail("nothing leads to a part of " names[k])
                follow(i, by_table[names[k]])
            }
        }
        for (k = 1; k <= count; k++)
            if (names[k] ~ /^rikkovan_/) print names[k], 8 + need(names[k])
    }' | sort
