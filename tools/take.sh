#!/usr/bin/env bash
# take.sh: after an rt ci that passed, puts what it proved to where make and the tests look for it: the programs as LLVM built them, to
# target/bin, and the archive, to target/staticlib. rt ci proves the static library and writes no archive; rattle writes it here over the
# libraries that rt ci left. On what each of them rests is told in target/log. Where a checkout's own libraries stand, rt does the same.
set -euo pipefail
cd "$(dirname "$0")/.."

archive=$PWD/target/staticlib/librikkovan.a
mkdir -p target/bin target/staticlib target/log

# Those of rt ci have no stamp. Another command of rt leaves one, and such a library may be older than the sources.
are_of_rt_ci() { ! compgen -G 'crates/*/out/rlib/stamp' >/dev/null; }

# Runs rattle on a crate, and fails where that is not proved, or not over the libraries of rt ci.
over_rt_ci() { # CRATE VERB WORDS..
    are_of_rt_ci && tools/rattle.py "$2" "$1" "${@:3}" >"target/log/$1" 2>&1 && are_of_rt_ci
}

write_archive() {
    rm -f "$archive"
    over_rt_ci rikkovan build --cpu x86-64 --backend llvm --toolchain "$(dirname "$(rt doc)")/toolchain" -o "$archive" && return
    tools/prove.sh 'write the library' lib rikkovan --cpu x86-64
    cp build/log/lib-rikkovan target/log/rikkovan
    install -m 644 crates/rikkovan/out/librikkovan.a "$archive"
}

# What rt ci said of a program, from the line with its name to the one that says it is proved. Of one that an earlier run proved it says
# nothing, so that is checked again.
take_program() { # PROGRAM
    install -m 755 "crates/$1/out/$1" "target/bin/$1"
    awk -v crate="$1" '/^== / { is_in = $0 == "== " crate } is_in { print } /^rt: .* proved$/ { is_in = 0 }' build/log/ci >"target/log/$1"
    ! grep -q '^logic=proved ' "target/log/$1" || return 0
    over_rt_ci "$1" check && return
    tools/prove.sh "what $1 rests on" check "$1"
    cp "build/log/check-$1" "target/log/$1"
}

parts=()
write_archive & parts+=($!)
take_program lpset & parts+=($!)
take_program replay & parts+=($!)
for part in "${parts[@]}"; do wait "$part"; done
echo "take: $(wc -c <"$archive") bytes of archive; $(grep '^logic=proved ' target/log/rikkovan | tail -n 1)"
