# shellcheck shell=bash
# What the tests share. Sourced with the name that their lines begin with.
suite=$1
work=$(mktemp -d)
trap 'rm -rf "$work"' EXIT
failures=0

# Runs a command, and shows what it wrote only if it fails.
check() { # NAME COMMAND..
    local name=$1
    shift
    if "$@" >"$work/log" 2>&1; then
        echo "$suite: ok: $name"
    else
        echo "$suite: FAILED: $name"
        sed 's/^/    /' "$work/log"
        failures=$((failures + 1))
    fi
}

# The same where a command is installed.
check_with() { # NEEDED NAME COMMAND..
    if command -v "$1" >/dev/null; then
        check "${@:2}"
    else
        echo "$suite: skipped: $2 ($1 is not installed)"
    fi
}

# The calls that the header declares.
header_calls() {
    sed -n 's/^uint64_t \(rikkovan_[a-z0-9_]*\)(.*/\1/p' include/rikkovan.h | sort
}

# The last line of the tests.
all_passed() {
    [ "$failures" -eq 0 ] || {
        echo "$suite: $failures failed"
        exit 1
    }
}
