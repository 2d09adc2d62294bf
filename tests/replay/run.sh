#!/usr/bin/env bash
# Tests the program replay, which `make target/bin/replay` builds, on recorded files in which a line is not as it was recorded. Its own test, the
# file stdout of its crate, is on files in which none differs. Prints a line for each test.
set -uo pipefail
cd "$(dirname "$0")/../.." || exit

replay=$PWD/target/bin/replay
data=crates/replay/data
. tests/lib.sh replay || exit

# The recorded files, for a test to change.
fresh() {
    rm -rf "$work/data" && cp -r $data "$work/data"
}

# Runs the program. What it says of the other files is what it says where none differs; of this one it says what is on standard input.
says() { # FILE
    local file=$1
    awk -v start="$file: " 'NR == FNR { said = said $0 "\n"; next } index($0, start) == 1 { printf "%s", said; next } { print }' \
        - crates/replay/stdout >"$work/wanted"
    (cd "$work/data" && "$replay") >"$work/written" 2>"$work/errors" || {
        echo "exit status $?"
        return 1
    }
    diff "$work/wanted" "$work/written" && diff /dev/null "$work/errors"
}

lines_of() { # FILE
    wc -l <"$data/$1.txt"
}

line_of() { # FILE NUMBER FOLDER
    sed -n "$2p" "$3/$1.txt"
}

# Where the answer begins on a line of a file: after the bytes that are read, or after what a call is given.
answer_at() { # FILE
    case $1 in
    plan | clocks | lpsys | load) echo 3 ;;
    *) echo 6 ;;
    esac
}

# With one field of a line changed by sed, the program names the line, shows it, and shows what it answers itself, which is what was recorded.
differs() { # FILE NUMBER FIELD SED-SCRIPT
    local file=$1 number=$2 changed
    fresh
    changed=$(line_of "$file" "$number" $data | cut -d ' ' -f "$3" | sed "$4")
    awk -v number="$number" -v field="$3" -v changed="$changed" 'NR == number { $field = changed } { print }' "$data/$file.txt" >"$work/data/$file.txt"
    cmp -s "$data/$file.txt" "$work/data/$file.txt" && echo 'nothing is changed' && return 1
    says "$file" <<END
$file: line $number: $(line_of "$file" "$number" "$work/data"), answered  $(line_of "$file" "$number" $data | cut -d ' ' -f "$(answer_at "$file")-")
$file: $(lines_of "$file") replayed, 1 different
END
}

[ -x "$replay" ] || {
    echo "replay: $replay is missing; make target/bin/replay builds it"
    exit 1
}

as_recorded() {
    fresh
    grep '^plan: ' crates/replay/stdout | says plan
}
check 'files as they were recorded' as_recorded

for file in "$data"/*.txt; do
    file=$(basename "$file" .txt)
    check "$file: another refusal on the last line" differs "$file" "$(lines_of "$file")" "$(answer_at "$file")" 's/.*/99/'
done

check 'another value' differs safe 5 7 's/$/0/'
check 'another count of entries' differs change 7 8 's/.*/12/'
check 'another count of answers' differs change 7 9 's/.*/1/'
check 'the last digit of an entry' differs change 7 10 's/.$/2/'
check 'an entry less' differs change 7 10 's/........$//'
check 'the last byte of a buffer' differs change 7 11 's/..$/01/'
check 'a clock that init leaves' differs init 1 12 's/^./F/'
check 'the name of another call' differs book 3 1 's/.*/wake/'
check 'the load of another list' differs load 1 4 's/^2/3/'
check 'the last frequency of a head' differs clocks 5 4 's/.$/1/'

# Twelve lines differ: all are counted, and ten are shown.
twelve() {
    local number
    fresh
    awk 'NR <= 12 { $3 = 99 } { print }' $data/plan.txt >"$work/data/plan.txt"
    {
        for number in 1 2 3 4 5 6 7 8 9 10; do
            echo "plan: line $number: $(line_of plan $number "$work/data"), answered  $(line_of plan $number $data | cut -d ' ' -f 3-)"
        done
        echo "plan: $(lines_of plan) replayed, 12 different"
    } | says plan
}
check 'twelve lines' twelve

# A line that is left out is missed by its count alone, which stdout has.
left_out() {
    fresh
    sed 7d $data/wake.txt >"$work/data/wake.txt"
    echo "wake: $(($(lines_of wake) - 1)) replayed, 0 different" | says wake
}
check 'a line left out' left_out

# Files that cannot be read to their end count as one that differs.
missing() {
    fresh
    rm "$work/data/book.txt"
    says book <<'END'
book: the file cannot be opened
book: 0 replayed, 1 different
END
}
check 'a file that is missing' missing

cut_short() {
    fresh
    head -c -1 $data/book.txt >"$work/data/book.txt"
    says book <<END
book: line $(lines_of book): no line feed at its end
book: $(($(lines_of book) - 1)) replayed, 1 different
END
}
check 'a last line without its end' cut_short

too_long() {
    fresh
    { sed 1q $data/book.txt && printf '%05000d\n' 0 && sed 1d $data/book.txt; } >"$work/data/book.txt"
    says book <<'END'
book: line 2: too long, so the file is read no further
book: 1 replayed, 1 different
END
}
check 'a line of 5,000 bytes' too_long

all_passed
