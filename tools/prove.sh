#!/usr/bin/env bash
# prove.sh WHAT ci|check|lib|run [CRATE WORDS..]: runs rt with the first word and those behind the crate, at the top or in the folder of the
# crate, and says on standard error how far it is: on a terminal in one line that moves, elsewhere in a line every ten seconds. What rt says
# goes to build/log; of what fails it is printed. The exit status is that of rt.
set -uo pipefail
cd "$(dirname "$0")/.." || exit
what=$1
shift
name=$1${2:+-$2}
folder=${2:+crates/$2}
log=$PWD/build/log/$name
# Of the last run that passed: for each crate and edit, the seconds between the end of the one before it and its own. They add up to the run.
times=$PWD/build/times/$name
mkdir -p build/log build/times || exit

is_moving='' every=${PROVE_EVERY:-10}
[ -t 2 ] && [ "${TERM:-dumb}" != dumb ] && is_moving=yes every=1

# The crate with those below it, or all; for ci the must-fail edits too, as CRATE/LABEL.
declare -A uses wanted
listed=() crates=() edits=()
while IFS=: read -r crate used; do
    crate=${crate%% *}
    uses[$crate]=$used
    listed+=("$crate")
done < <(grep -E '^[a-z_0-9]+[a-z_0-9= ]*:' crates.txt)
want() { # CRATE..
    local crate
    for crate; do
        [[ -v uses[$crate] && ! -v wanted[$crate] ]] || continue
        wanted[$crate]=1
        # shellcheck disable=SC2086
        want ${uses[$crate]}
        crates+=("$crate")
    done
}
if [ $# -gt 1 ]; then want "$2"; else want "${listed[@]}"; fi
if [ "$1" = ci ]; then
    readarray -t edits < <(printf '%s\n' crates/*/must-fail/*.edit | sed -n 's|^crates/\([^*]*\)/must-fail/\(.*\)\.edit$|\1/\2|p')
fi

crates_over=0 edits_over=0 at_work=''
began=$SECONDS over_at=$SECONDS
declare -A is_over took last
if [ -f "$times" ]; then
    while read -r item seconds; do last[$item]=$seconds; done <"$times"
fi

clear_line() { [ -z "$is_moving" ] || printf '\r\e[K' >&2; }

say() {
    clear_line
    printf '%s: %s\n' "$what" "$*" >&2
}

clock() { # SECONDS
    printf '%d:%02d' $(($1 / 60)) $(($1 % 60))
}

# What the rest took in the last run; what was not in it counts as the mean of the others. Nothing where it had none of them.
left() {
    local item sum=0 known=0 rest=0
    for item in "${crates[@]}" "${edits[@]}"; do
        [[ ! -v is_over[$item] ]] || continue
        rest=$((rest + 1))
        [[ -v last[$item] ]] && sum=$((sum + last[$item])) known=$((known + 1))
    done
    [ "$known" -gt 0 ] && sum=$((sum * rest / known))
    [ "$known" -gt 0 ] || [[ $rest -eq 0 && -v last[end] ]] || return 0
    sum=$((sum + ${last[end]:-0} - (SECONDS - over_at)))
    clock $((sum < 0 ? 0 : sum))
}

counts() {
    echo "$crates_over of ${#crates[@]} crates${edits[*]:+, $edits_over of ${#edits[@]} must-fail edits}"
}

show() {
    local line width left
    left=$(left)
    line="$what: $(counts) ($(clock $((SECONDS - began)))${left:+, about $left left})${at_work:+: $at_work}"
    if [ -z "$is_moving" ]; then
        echo "$line" >&2
        return
    fi
    width=$(stty size <&2 2>/dev/null | cut -d' ' -f2)
    [ "${width:-0}" -gt 1 ] || width=80
    printf '\r\e[K%s' "${line:0:width-1}" >&2
}

# Counts what is over. What an earlier run proved takes no time, and keeps its time of the run before.
over() { # ITEM [kept]
    [[ ! -v is_over[$1] ]] || return 0
    is_over[$1]=1
    if [[ $1 == */* ]]; then edits_over=$((edits_over + 1)); else crates_over=$((crates_over + 1)); fi
    [ -z "${2:-}" ] || return 0
    took[$1]=$((SECONDS - over_at))
    over_at=$SECONDS
}

# By a line of rt: what is over, and what failed. rt ci ends each crate with a line of its own, and tells of the edits when all are tried.
# The other commands work on one crate after another: they name it where they begin, and rattle's last line says that it is proved.
note() { # LINE
    case $1 in
    'rt: must-fail '*)
        [[ $1 =~ ^rt:\ must-fail\ ([^ ]+)\.edit:\  ]] && over "${BASH_REMATCH[1]}"
        [[ $1 == *': refused, as it must be'* ]] || say "FAILED: ${1#rt: }"
        ;;
    'rt: '*' NOT PROVED'*)
        [[ $1 =~ ^rt:\ ([a-z_0-9]+)\ NOT\ PROVED ]] && over "${BASH_REMATCH[1]}"
        say "FAILED: ${1#rt: }"
        ;;
    'rt: chose --jobs '*) at_work=${1##* } ;;
    'logic=proved '*) [ -z "$at_work" ] || { over "$at_work" && at_work=''; } ;;
    *)
        [[ $1 =~ ^rt:\ ([a-z_0-9]+)\ proved$ ]] && over "${BASH_REMATCH[1]}"
        [[ $1 =~ ^rt:\ ([a-z_0-9]+)\ is\ kept:\  ]] && over "${BASH_REMATCH[1]}" kept
        ;;
    esac
}

# Reads the lines that rt has printed since; one that is not whole yet is kept for the next time.
part=''
look() {
    local line
    while IFS= read -r line <&3; do
        note "$part$line"
        part=''
    done
    part+=$line
}

# A command that passes, and is no rt ci, has not named the crates that had not changed.
all_over() {
    local item
    for item in "${crates[@]}"; do over "$item" kept; done
}

save_times() {
    local item
    took[end]=$((SECONDS - over_at))
    for item in "${!took[@]}"; do last[$item]=${took[$item]}; done
    for item in "${!last[@]}"; do echo "$item ${last[$item]}"; done | sort >"$times.new" && mv "$times.new" "$times"
}

# What rt says of a crate ends with its line of it.
print_failures() {
    awk '
        { block = block $0 "\n" }
        /^rt: / && !/ (proved|passed)$| is kept: | ran(,| \()|: refused, as it must be|must-fail edits( \(| were tried)/ { printf "%s", block }
        /^rt: / { block = "" }
        END { printf "%s", block }' "$log"
    echo "$what: FAILED with status $1, $(counts); all that rt said is in build/log/$name"
}

# Ends rt with all that it started.
child=''
# shellcheck disable=SC2317
leave() {
    [ -z "$child" ] || kill -- "-$child" 2>/dev/null && wait "$child" 2>/dev/null
}
trap leave EXIT
trap 'clear_line; exit 130' INT
trap 'clear_line; exit 143' TERM HUP

: >"$log"
exec 3<"$log"
# In a process group of its own, so that it can be ended whole.
set -m
(cd "./$folder" && exec rt "$1" "${@:3}") </dev/null >"$log" 2>&1 3<&- &
child=$!
set +m
# rt goes on when nobody reads how far it is.
trap '' PIPE
say "${#crates[@]} crates${edits[*]:+, ${#edits[@]} must-fail edits}; what rt says goes to build/log/$name"
looked=$SECONDS shown=$SECONDS
while kill -0 "$child" 2>/dev/null; do
    sleep 0.2
    [ "$looked" -ne "$SECONDS" ] || continue
    looked=$SECONDS
    look
    [ $((SECONDS - shown)) -ge "$every" ] || continue
    shown=$SECONDS
    show
done
status=0
wait "$child" || status=$?
child=''
look
clear_line
if [ "$status" -eq 0 ]; then
    [ "$1" = ci ] || all_over
    save_times
    say "$(counts) ($(clock $((SECONDS - began))))"
else
    print_failures "$status"
fi
exit "$status"
