#!/usr/bin/env bash
# Tests tools/prove.sh on what rt says, played by a program of that name in a repository of three crates and two edits. Run by
# `make test-prove`; it takes some seconds. Prints a line for each test.
set -uo pipefail
cd "$(dirname "$0")/../.." || exit
. tests/lib.sh prove || exit

export PROVE_EVERY=1
repo=$work/repo
mkdir -p "$repo/tools" "$work/bin" "$repo"/crates/{low,high}/must-fail
cp tools/prove.sh "$repo/tools"
printf '%s\n' '# lowest first' 'low:' 'other:' 'high staticlib: low io' >"$repo/crates.txt"
touch "$repo"/crates/{low,high}/must-fail/wrong.edit

cat >"$work/bin/rt" <<'RT'
#!/usr/bin/env bash
# Waits until the script has shown it, however slow the machine is; where nobody reads, goes on.
shown() { # WORDS
    local tries
    [ -n "${SEEN:-}" ] || return 0
    for ((tries = 0; tries < 600; tries++)); do
        grep -qF "$1" "$SEEN" && return
        sleep 0.1
    done
    exit 4
}
. "$PLAY"
RT
chmod +x "$work/bin/rt"
cat >"$work/passes" <<'PLAY'
[ "$*" = ci ] && [ -f crates.txt ] || exit 3
proved='logic=proved functions=6 sum=dac8208d650f15bf native=nat,char,string logic-built=trusted libraries-built=trusted statements=trusted'
printf '%s\n' '== low' 'fn low::add: proved' "$proved" 'rt: low proved'
echo 'rt: low: trying its must-fail edits (1)'
shown '1 of 3 crates, 0 of 2'
printf '%s\n' 'rt: other is kept: an earlier run on this machine proved the same files over the same libraries'
printf '%s\n' '== high: its tests' "$proved" 'rt: high: its tests are proved'
printf '%s\n' '== high' 'fn high::sum: proved' "$proved" 'rt: high proved'
shown '3 of 3 crates, 0 of 2'
echo 'rt: low: 1 of its 1 must-fail edits were tried by an earlier run on this machine, and nothing that they stand on has changed'
echo 'rt: must-fail low/wrong.edit: refused, as it must be: note: src/lib.rt:7:3: it is not proved that a holds'
echo 'rt: must-fail high/wrong.edit: refused, as it must be'
echo 'rt: high ran, and wrote what its file stdout has'
echo "rt: high ran (built by Rattle's own compiler), and wrote what its file stdout has"
echo 'rt: high: its tests passed'
echo 'rt: ok; handles allowed: none; must-fail edits: 2 refused; every proof and must-fail edit was done in this run'
echo '5 passed, 0 failed'
PLAY
cat >"$work/fails" <<'PLAY'
[ "${PWD##*/}" = high ] || exit 3
echo 'rt: chose --jobs 2 for low'
echo 'fn low::add: proved'
echo 'logic=proved functions=1'
echo 'rt: chose --jobs 2 for high'
echo 'src/lib.rt:4:5: error: it is not proved that 2 ≤ 1'
echo 'logic=not-proved functions=1'
exit 1
PLAY
cat >"$work/refuses" <<'PLAY'
printf '%s\n' '== low' 'fn low::add: proved' 'rt: low proved'
printf '%s\n' '== high' 'src/lib.rt:4:5: error: it is not proved that 2 ≤ 1' 'rt: high NOT PROVED'
echo 'rt: must-fail low/wrong.edit: NOT REFUSED: the crate is still proved with this edit'
echo 'rt: FAILED: high low/wrong.edit'
echo '2 passed, 2 failed'
exit 1
PLAY
cat >"$work/archives" <<'PLAY'
[ "$*" = 'lib --cpu x86-64' ] && [ "${PWD##*/}" = high ] || exit 3
echo 'rt: chose --jobs 2 for high'
shown '0 of 2 crates'
echo 'logic=proved functions=2 target=x86_64-unknown-linux-gnu'
PLAY
echo 'echo "rt: low proved"; kill -KILL $$' >"$work/dies"
echo 'echo "rt: crates.txt: line 3: write NAME [staticlib|wasm64] [: LIBRARY ..]" >&2; exit 2' >"$work/cannot"
echo 'sleep 1000 & echo $! >"$SLEEPER"; wait' >"$work/goes_on"

# Runs the script, and wants a status.
plays() { # STATUS PLAY WORDS..
    local status=0
    SEEN=$work/err PLAY=$work/$2 PATH=$work/bin:$PATH "$repo/tools/prove.sh" 'try it' "${@:3}" >"$work/out" 2>"$work/err" || status=$?
    cat "$work/out" "$work/err"
    [ "$status" -eq "$1" ]
}

# The lines of standard error are such, in this order; other lines may stand between them.
says() { # PATTERN..
    local line
    while IFS= read -r line; do
        # shellcheck disable=SC2053
        [[ $# -eq 0 || $line != $1 ]] || shift
    done <"$work/err"
    [ $# -eq 0 ] || {
        echo "not said: $1"
        return 1
    }
}

passes() {
    rm -rf "$repo/build"
    plays 0 passes ci && diff /dev/null "$work/out" &&
        says 'try it: 3 crates, 2 must-fail edits; what rt says goes to build/log/ci' \
            'try it: 1 of 3 crates, 0 of 2 must-fail edits (?:??)' \
            'try it: 3 of 3 crates, 0 of 2 must-fail edits (?:??)' \
            'try it: 3 of 3 crates, 2 of 2 must-fail edits (?:??)'
}

keeps_every_line() {
    [ "$(wc -l <"$repo/build/log/ci")" -eq 21 ] && [ "$(tail -n 1 "$repo/build/log/ci")" = '5 passed, 0 failed' ]
}

# The seconds of what it did, which add up to the run: it has shown two lines, a second apart at least.
keeps_the_times() {
    local sum
    cut -d' ' -f1 "$repo/build/times/ci" | diff - <(printf '%s\n' end high high/wrong low low/wrong) &&
        sum=$(awk '{ sum += $2 } END { print sum }' "$repo/build/times/ci") && [ "$sum" -ge 2 ] &&
        [ "$sum" -le "$(sed -n '$s/.*(\(.*\):\(.*\)).*/\1 \2/p' "$work/err" | awk '{ print $1 * 60 + $2 }')" ]
}

# `other` was not in the last run, so it counts 800 seconds, the mean; a minute may go by before each line.
knows_the_time_left() {
    printf '%s\n' 'low 600' 'high 1200' 'low/wrong 600' 'high/wrong 600' 'end 0' >"$repo/build/times/ci"
    plays 0 passes ci && says 'try it: 1 of 3 crates, 0 of 2 must-fail edits (?:??, about 5[23]:?? left)' \
        'try it: 3 of 3 crates, 0 of 2 must-fail edits (?:??, about @(19|20):?? left)'
}

fails() {
    plays 1 fails lib high && says 'try it: 2 crates; what rt says goes to build/log/lib-high' &&
        diff "$work/out" - <<'END'
rt: chose --jobs 2 for low
fn low::add: proved
logic=proved functions=1
rt: chose --jobs 2 for high
src/lib.rt:4:5: error: it is not proved that 2 ≤ 1
logic=not-proved functions=1
try it: FAILED with status 1, 1 of 2 crates; all that rt said is in build/log/lib-high
END
}

refuses() {
    plays 1 refuses ci &&
        says 'try it: FAILED: high NOT PROVED' \
            'try it: FAILED: must-fail low/wrong.edit: NOT REFUSED: the crate is still proved with this edit' &&
        diff "$work/out" - <<'END'
== high
src/lib.rt:4:5: error: it is not proved that 2 ≤ 1
rt: high NOT PROVED
rt: must-fail low/wrong.edit: NOT REFUSED: the crate is still proved with this edit
rt: FAILED: high low/wrong.edit
2 passed, 2 failed
try it: FAILED with status 1, 2 of 3 crates, 1 of 2 must-fail edits; all that rt said is in build/log/ci
END
}

dies() {
    plays 137 dies ci && grep -q '^try it: FAILED with status 137, 1 of 3 crates, 0 of 2 must-fail edits;' "$work/out"
}

cannot() {
    plays 2 cannot lib high && grep -qx 'rt: crates.txt: line 3: write NAME .*' "$work/out"
}

writes_archive() {
    plays 0 archives lib high --cpu x86-64 && says 'try it: 0 of 2 crates (?:??): high' 'try it: 2 of 2 crates (?:??)'
}

# One that has ended may wait for its parent.
runs() { # PROCESS
    grep -q '^State:[[:space:]]*[^Z[:space:]]' "/proc/$1/status"
}

ends() { # PROCESS
    local tries
    for ((tries = 0; tries < 600; tries++)); do
        runs "$1" || return 0
        sleep 0.1
    done
    return 1
}

# Runs it in a process group of its own, and sends a signal to that. A shell cannot take back that a signal is ignored, so env does.
is_ended_by() { # SIGNAL STATUS
    local group status=0
    rm -f "$work/sleeper"
    set -m
    SLEEPER=$work/sleeper PLAY=$work/goes_on PATH=$work/bin:$PATH env --default-signal "$repo/tools/prove.sh" 'try it' lib high &
    group=$!
    set +m
    until [ -s "$work/sleeper" ] || ! kill -0 "$group"; do sleep 0.1; done
    kill "-$1" -- "-$group"
    wait "$group" || status=$?
    [ "$status" -eq "$2" ] && ends "$(cat "$work/sleeper")"
}

goes_on_unread() {
    local status
    PLAY=$work/passes PATH=$work/bin:$PATH "$repo/tools/prove.sh" 'try it' ci 2>&1 | true
    status=${PIPESTATUS[0]}
    [ "$status" -eq 0 ] && keeps_every_line
}

on_terminal() { # TERM
    : >"$work/seen"
    TERM=$1 SEEN=$work/seen PLAY=$work/passes PATH=$work/bin:$PATH script -qec "'$repo/tools/prove.sh' 'try it' ci" /dev/null </dev/null >"$work/seen"
}

moves() {
    on_terminal xterm && grep -q $'\r\e\[Ktry it: 1 of 3 crates.*\r\e\[Ktry it: 3 of 3 crates, 2 of 2' "$work/seen"
}

does_not_move() {
    on_terminal dumb && grep -q '^try it: 1 of 3 crates' "$work/seen" && ! grep -q $'\e' "$work/seen"
}

check 'a run that passes' passes
check 'the log has all that rt said' keeps_every_line
check 'the times of the run' keeps_the_times
check 'the time left, by the last run' knows_the_time_left
check 'a crate that is not proved' fails
check 'an rt ci that fails' refuses
check 'a static library' writes_archive
check 'rt is killed' dies
check 'rt does nothing' cannot
check 'an interrupt ends all' is_ended_by INT 130
check 'a hangup ends all' is_ended_by HUP 143
check 'nobody reads how far it is' goes_on_unread
check_with script 'a line that moves' moves
check_with script 'a terminal that moves nothing' does_not_move

all_passed
