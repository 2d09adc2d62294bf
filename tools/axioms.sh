#!/usr/bin/env bash
# axioms.sh: refuses a proof that rests on an axiom, by the lines that tools/take.sh left in target/log for the static library and the
# programs: each of these is proved with all that it links. The programs alone rest on some: the contracts of the C functions that std calls
# for their arguments, files and output, which the kit's libraries assume.
set -euo pipefail
cd "$(dirname "$0")/.."

# The crates that may use libraries of the kit beside std.
programs=' text lpset recorded_answer replay '

# What each may rest on. rattle names three functions of a library, and counts the others; of one that it does not reach it says so.
allowed() { # CRATE
    case $1 in
    lpset)
        echo 'axioms libc: libc::chdir, libc::chmod, libc::chown, ... (26)'
        echo 'axioms os: os::c::__xpg_strerror_r, os::c::fcntl, os::c::getdents64, ... (11)'
        echo 'axioms=37'
        ;;
    replay)
        echo 'axioms libc: libc::chmod, libc::chown, libc::close, ... (24)'
        echo 'axioms os: os::c::__xpg_strerror_r, os::c::fcntl, os::c::getdents64, ... (8)'
        echo 'axioms=32'
        ;;
    esac
}

# The axioms that rattle says a crate rests on, and the C functions that it declares.
assumed() { # CRATE
    grep -E '^(axioms|logic=proved) ' "target/log/$1" | grep -v ': none reached of the ' |
        grep -oE '^axioms .*|(axioms|foreign)=[^ ]*' | sed 's/ of the .* declared//'
}

failures=0
fail() {
    echo "axioms: $*"
    failures=$((failures + 1))
}

check() { # CRATE
    grep -q '^logic=proved .* target=' "target/log/$1" 2>/dev/null || { fail "target/log/$1 has no line that says it is proved with all that it links" && return; }
    grep -q '^axioms ' "target/log/$1" || fail "target/log/$1 does not say what $1 reaches"
    diff <(allowed "$1") <(assumed "$1") >/dev/null || fail "$1 rests on other axioms than tools/axioms.sh lists: $(assumed "$1" | paste -sd ';')"
}

# A library that is not static has no such lines, so it may use no crate that could rest on some. rt ci refuses one that declares C functions.
uses_none() { # CRATE USED..
    local used
    for used in "${@:2}"; do
        [[ $programs != *" $used "* && -d crates/$used ]] || fail "$1 uses $used, and only the programs may rest on contracts of C functions"
    done
}

count=0
while IFS=: read -r crate used; do
    count=$((count + 1))
    crate=${crate%% *}
    # shellcheck disable=SC2086
    [[ $programs == *" $crate "* ]] || uses_none "$crate" $used
done < <(grep -E '^[a-z_0-9]+[a-z_0-9= ]*:' crates.txt)
check rikkovan
check lpset
check replay
echo "axioms: $count crates, $failures faults"
[ "$failures" -eq 0 ]
