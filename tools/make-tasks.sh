#!/bin/sh
# make-tasks.sh [DIR]: writes the example lists of tasks to DIR, by default examples/tasks.
# examples/README.md says what each one is.
set -eu
cd "$(dirname "$0")/.."
out=${1:-examples/tasks}
mkdir -p "$out"

. tools/bytes.sh

# tasks NAME [ID CYCLES PERIOD]..: writes these tasks to NAME.tasks.
tasks() {
    name=$1
    shift
    while [ $# -gt 0 ]; do
        bytes "$1" 1
        bytes "$2" 4
        bytes "$3" 4
        shift 3
    done >"$out/$name.tasks"
}

# alike COUNT: the tasks 1 to COUNT, each 15,000 cycles in a millisecond.
alike() {
    id=1
    while [ "$id" -le "$1" ]; do
        echo "$id 15000 1000"
        id=$((id + 1))
    done
}

# Accepted. The periods are in microseconds.
tasks none
tasks two               1 120000 1000  2 80000 1000
tasks three             1 120000 1000  2 80000 1000  3 40000 1000
tasks three-heavy       1 120000 1000  2 80000 1000  3 64000 1000
tasks thirds            1 1 3  2 1 3
tasks slow              7 11 10000000
tasks largest           255 4294967295 1
# shellcheck disable=SC2046
tasks sixteen           $(alike 16)

# Refused.
# shellcheck disable=SC2046
tasks seventeen         $(alike 17)
tasks id-zero           1 120000 1000  0 80000 1000
tasks cycles-zero       1 120000 1000  2 0 1000
tasks period-zero       1 120000 1000  2 80000 0
tasks period-too-long   1 120000 1000  2 80000 10000001
tasks same-id           1 120000 1000  2 80000 1000  1 40000 1000
tasks same-id-and-zero  1 120000 1000  1 80000 1000  3 0 1000
head -c 17 "$out/two.tasks" >"$out/short.tasks"
{ cat "$out/two.tasks" && bytes 0 1; } >"$out/long.tasks"
