#!/bin/sh
# design-places.sh [-c] [KIND]: the places that docs/DESIGN-PASS.md counts, each as FILE:LINE: text under the heading of its kind, such as
# 1a. With -c the number of places of each kind; with KIND, a number of a point or one kind, no others.
set -eu
cd "$(dirname "$0")/.."
counts=no
if [ "${1:-}" = -c ]; then
    counts=yes
    shift
fi
want=${1:-}
work=$(mktemp -d)
trap 'rm -rf "$work"' EXIT

# The sources, lowest crate first.
awk '!/^#/ { sub(/[ :].*/, ""); if ($0 != "") print "crates/" $0 "/src" }' crates.txt | while read -r folder; do
    find "$folder" -name '*.rt' | sort
done >"$work/sources"

# on COMMAND..: runs a command on all sources.
on() {
    xargs "$@" <"$work/sources" || true
}

# lines PATTERN [CRATES]: the lines of code that match, in all crates or in some.
lines() {
    on grep -nE "$1" /dev/null | grep -E "^crates/(${2:-.*})/src/" | grep -vE '^[^:]*:[0-9]*: *(//|ghost use|requires|ensures)' |
        sed 's/^\([^:]*:[0-9]*:\) */\1 /'
}

# functions NAMES [CRATES]: the heads of functions whose name matches.
functions() {
    lines "^ *(pub )?fn ($1)[(<]" "${2:-}"
}

# Enums with a variant that carries a value and one that carries none, and those of two variants that each carry one.
cat >"$work/enums.awk" <<'AWK'
/^(pub )?enum / { name = $0; sub(/ *\{$/, "", name); line = FNR; with = without = 0; next }
name != "" && /^}/ {
    if (with && (without || with == 2)) print FILENAME ":" line ": " name
    name = ""; next
}
name != "" && /^    [A-Z]/ { if ($0 ~ /[({]/) with++; else without++ }
AWK

# Of each function one line: what it asks or promises, fact by fact (WHAT=facts), its parameters (WHAT=parameters), or its body with every name
# as i, every number as n and every text as s (WHAT=shapes); then a tab and FILE:LINE: name. In a fact a parameter is written as _.
cat >"$work/functions.awk" <<'AWK'
function plain(text,   out, word, head) {
    out = ""
    while (text != "") {
        if (match(text, /^[A-Za-z_][A-Za-z0-9_]*(\.[A-Za-z0-9_]+)*/)) {
            word = substr(text, 1, RLENGTH); text = substr(text, RLENGTH + 1)
            head = word; sub(/\..*/, "", head)
            if (index(names " result self ", " " head " ")) {
                sub(/^[^.]*/, "", word); sub(/\.(old|new|now|0)$/, "", word)
                word = (head == "result" ? "result" : "_") word
            }
            out = out word
        } else { out = out substr(text, 1, 1); text = substr(text, 2) }
    }
    gsub(/Lent [0-9]+/, "Lent k", out)
    return out
}
function facts(text,   n, part, i, fact, open, shut) {
    gsub(/ × /, "\001", text)
    n = split(text, part, "\001")
    for (i = 1; i <= n; i++) {
        fact = part[i]
        sub(/^ +/, "", fact); sub(/ +$/, "", fact)
        for (;;) {
            open = gsub(/\(/, "(", fact); shut = gsub(/\)/, ")", fact)
            if (open > shut && sub(/^\(/, "", fact)) continue
            if (shut > open && sub(/\)$/, "", fact)) continue
            if (open == 1 && shut == 1 && fact ~ /^\(.*\)$/) { sub(/^\(/, "", fact); sub(/\)$/, "", fact); continue }
            break
        }
        print plain(fact) "\t" place
    }
}
function parameters(text) {
    while (match(text, /[a-z_][A-Za-z0-9_]*: [^,)]*/)) {
        item = substr(text, RSTART, RLENGTH); text = substr(text, RSTART + RLENGTH)
        list = list item "; "; sub(/:.*/, "", item); names = names " " item
    }
    if (text ~ /self/) { list = list "self; " }
}
function shape(text,   word) {
    sub(/\/\/.*/, "", text)
    gsub(/b?"[^"]*"|b'[^']*'/, " s ", text); gsub(/[A-Za-z_][A-Za-z0-9_]*::/, "", text)
    while (text != "") {
        if (match(text, /^[ \t]+/)) { text = substr(text, RLENGTH + 1); continue }
        if (match(text, /^[A-Za-z_][A-Za-z0-9_]*/)) {
            word = substr(text, 1, RLENGTH)
            if (word !~ /^(let|mut|if|else|match|return|while|for|in|as|true|false|self)$/) word = "i"
            text = substr(text, RLENGTH + 1)
        } else if (match(text, /^[0-9][0-9A-Za-z_]*/)) { word = "n"; text = substr(text, RLENGTH + 1) }
        else { word = substr(text, 1, 1); text = substr(text, 2) }
        body = body word " "
    }
}
/^ *(pub )?(extern "C" )?fn / {
    match($0, /^ */); indent = RLENGTH; head = 1; refuses = 0; list = names = body = ""
    name = $0; sub(/^.*fn /, "", name); sub(/[(<].*/, "", name); place = FILENAME ":" FNR ": " name
    rest = $0; sub(/^[^(]*\(/, "", rest); parameters(rest)
    if (/\{$/) { head = 0; code = 1; if (WHAT == "parameters") print list "\t" place }
    next
}
head && /^ *(requires|ensures) / {
    clause = $0
    while (clause !~ /\}$/ && (getline more) > 0) clause = clause " " more
    sub(/^[^{]*\{ */, "", clause); sub(/ *\}$/, "", clause)
    if (WHAT == "facts") facts(clause)
    if (clause ~ /^result ≡ \(?([a-z_]*refusal|first_of|unfit_for|number_of|digit_of)( |$)/) {
        refuses = 1
        if (WHAT == "refusal functions") print place ": " clause
    }
    next
}
head && !/^ *\{$/ { parameters($0) }
head && /\{$/ { head = 0; code = 1; if (WHAT == "parameters") print list "\t" place; next }
code {
    if (WHAT == "refusals" && refuses && /^ *(return [0-9]+;|[0-9]+|return refused;)$/) {
        line = $0; sub(/^ */, "", line); print FILENAME ":" FNR ": " line
    }
    match($0, /^ */)
    if (/^ *\}$/ && RLENGTH == indent) { code = 0; if (WHAT == "shapes") print body "\t" place; next }
    shape($0)
}
AWK

# shared LEAST: of lines `KEY<tab>PLACE` those whose key at least so many lines have, the commonest first, with the key and how many have it.
shared() {
    awk -F '\t' -v least="$1" '
        { if (!($1 in n)) order[++keys] = $1; n[$1]++; at[$1] = at[$1] $2 "\n" }
        END { for (k = 1; k <= keys; k++) if (n[order[k]] >= least) {
            m = split(at[order[k]], place, "\n")
            for (i = 1; i < m; i++) printf "%d\t%d\t%s\t%s\n", n[order[k]], k, place[i], order[k] } }' |
        sort -t "$(printf '\t')" -k1,1nr -k2,2n -s |
        awk -F '\t' -v keyed="${2:-yes}" '
            $2 != last { last = $2; groups++ }
            { print $3 (keyed == "yes" ? ", one of " $1 ": " $4 : ", one of " $1 " alike, group " groups) }'
}

# together PATTERN..: the functions that have a parameter of each pattern.
together() {
    on awk -v WHAT=parameters -f "$work/functions.awk" >"$work/parameters"
    for pattern; do
        grep -E "(^|; )$pattern" "$work/parameters" >"$work/some" || true
        mv "$work/some" "$work/parameters"
    done
    awk -F '\t' '{ print $2 ": " $1 }' "$work/parameters"
}

# kind NAME HEADING COMMAND..: the places of one kind.
kind() {
    name=$1 heading=$2
    shift 2
    case $name in "$want"*) ;; *) return 0 ;; esac
    "$@" >"$work/places" || true
    if [ "$counts" = yes ]; then
        printf '%s\t%d\t%s\n' "$name" "$(wc -l <"$work/places")" "$heading"
    else
        printf '# %s %s: %d\n' "$name" "$heading" "$(wc -l <"$work/places")"
        cat "$work/places"
    fi
}

# of WHAT: what the program above finds.
of() {
    on awk -v WHAT="$1" -f "$work/functions.awk"
}

refusals_by_number() {
    of refusals
    lines '(refused|unadmitted|refuse)\([0-9A-Z][0-9A-Z_]*\)|stop = [1-9]|stop == [1-9]|: u8 = 35;|NO_DIGIT'
}

register_numbers() {
    lines '^pub const [A-Z0-9_]+: usize = [0-9]+;' register
    lines '\b(number|register): usize|answers, 3, d\)|number as u32'
}

numbers_for_none() {
    lines 'struct MaybeHertz|MaybeHertz::NONE|NONE:|[^e]Hertz\(0\)|hertz == 0'
    functions 'usb_divider|decimal|byte_at'
    functions read 'text|lpset'
}

codes() {
    lines 'const (DBL96|DLL1|DLL2|USB_DLL2|MPI_DLL1|MPI_DLL2|HRC48|HXT48|FLASH_DLL2|PM_STANDBY_BOOT): u(8|32) = '
    lines 'pub (sys|wdtsel|usbsel|perisel|mpi1sel|mpi2sel|boot_mode): u8,'
    lines '(\((buffer: &mut \[u8\], )?|, |^ *)(selects?|source|present|stage|half|dll1|dll2|back|sys|old): u(8|32)\b'
    lines '(select|source|supply|sys|usbsel|boot_mode|SUPPLY\]|register::[abc]\([a-z0-9]+\)|present|stage|half) (==|!=) ([0-9]|[A-Z])'
    lines 'store\(journal, register::[A-Z0-9_]+, ([0-9]|HXT48)'
}

entries_and_waits() {
    lines '4[89] \* 16777216|5 \* 65536|kind(: u32| \* 65536)|wait_(for|none)\(m, journal, (answers, )?[0-9]|const (DELAY|WAIT)|n == (DELAY|WAIT)|35 <= n|n < 35'
}

shapes() {
    of shapes | awk -F '\t' 'gsub(/ /, " ", $1) > 4 { print $1 "\t" $2 }' | shared 2 no
}

twin_types() {
    lines 'enum (Hpsys|Lpsys)(DvfsMode|ModeFound)|struct (Hpsys|Lpsys)DvfsConfig|const (HPSYS|LPSYS)_DVFS_CONFIG'
    lines 'pub (enum|struct) (Decoded|Admitted|Planned|Checked|Verdict) '
    lines 'pub enum Call ' 'recorded_.*|replay'
}

# Those of 2a left out.
twin_functions() {
    functions '(two|six|eight)_digits' digits
    functions 'two_bytes|four_bytes|four_at|put_four|word|word_at|put_word' 'record|register|recorded_line'
    functions 'dll_freq|dll_whole_freq' 'plan_clocks|clock_read'
    functions 'is_overloaded|refusal' 'guard|booking'
    functions 'numbers|lpsys_numbers|read_clocks' 'readings|fit_reading'
    functions 'clocks_after|clocks_beside|admit|admit_with_answers|refused|unadmitted' call
    functions 'refused|blank_head' 'verdict|load|head'
    functions 'store|write|wait_for|measure' 'journal|waits'
    functions 'from_frequency|number|hpsys_frequency_limit|lpsys_frequency_limit|limit' 'dvfs|fit'
    functions 'config_(hcpu|lpsys)_dvfs_(first|second)' 'dvfs_hpsys|dvfs_lpsys'
    functions 'enable_hpbg|enable_vddpsw' dll
    functions 'configure_dll[12]|switch_away_from_dll1|leave_hrc48|to_hxt48' 'core_clock|init_rest|init_first|guard_steps'
    functions 'away|moved|back_to|flash_back' 'guard_steps|init_rest'
    functions 'has_id|all_ok|distinct' task
}

equality() {
    functions 'same_mode|highest|is_s|is_set|is_absent|is_digit|is_warning'
    lines 'number\(\) (==|<=|<) '
}

conversions() {
    functions 'whole_mhz|to_hertz|from_hertz|from_reading|unwrap_or' time
    functions 'present|stage|half|flag|dll|fields' 'plan|head'
    functions 'value|word|pack|of_answer|number' 'task|load|call|moment|verdict|register'
    functions 'from_frequency|from_hertz|number|mode_or|mode_at' 'dvfs|guard_steps|lpsys_request'
    functions 'numbers|lpsys_numbers|clocks_in|join' 'readings|fit_reading|recorded_line'
    functions 'glyph|digit|with_digit|decimal|decode_pair' digits
}

bytes_by_hand() {
    functions 'two_bytes|four_bytes|four_at|put_four|word|word_at|put_word|wide|a|b|c' 'record|register|recorded_line'
    lines '\(length [/%] 256\)|[/%] (16777216|65536|VALUES)|\* (16777216|65536)\b|u32 \+ (1|255)\) % 256' \
        'head|journal|call|moment|waits|lpsys_wake|lpset'
}

copies() {
    lines '^ *(let [a-z]+ = )?Machine \{$'
    lines '\[at \+ i\] = |tasks\[i\] = tasks|clocks\[1[34]\] = '
}

texts() {
    functions 'say|entry|steps|refusal_or_done|hertz_or_dash|result' lpset
    functions 'say|start|at_line|different|overwritten|broken|unopened|sums' replay
    functions 'put[a-z_]*' 'text|recorded_answer|replay'
}

by_hand() {
    functions 'in_32_bits|prescale|share|cycles|first_ready|difference' 'time|clock|load|journal|waits|calibration'
    functions 'is_digit|with_digit|decimal|byte_at|end_of|counted|one_different|two_digits|six_digits|eight_digits' \
        'digits|recorded_line|text|replay'
    lines 'u32 \+ (1|255)\) % 256' lpsys_wake
}

facts_of_three() {
    of facts | awk -F '\t' '$1 !~ /^result ≡/ && $1 !~ /^(Does|DoesWithoutJournal|Answers|Gives|Puts|Admits|Warned) /' | shared 3
}

machine_and_journal() {
    together '(m: (&mut )?Machine|self)' 'journal: &mut' | grep -v 'answers: ' || true
}

counts_beside() {
    {
        lines '\b(count|size|shown|have|from|to|next|end): (u8|usize)\b'
        lines '(\(|, |^ *)(pub )?(at|taken|entries): usize\b'
    } | sort -t: -k1,1 -k2,2n -u
}

searches() {
    functions 'within' record
    functions 'has_id|look_up|all_ok|distinct' task
    functions 'are_entries|first_ready|keeps|end_of|decode_pairs'
}

calls_by_enum() {
    lines 'enum (Call|Recorded|Reading) ' 'recorded_.*|replay'
}

lists_of_calls() {
    lines '^(lpsys|config|tasks)\(|    (lpsys|config|tasks)\(|files::replay\(rt, ' replay
}

halves() {
    functions '(config|switch)_(hcpu|lpsys)_dvfs_[a-z0-9_]*(first|second)|config_hcpu_dvfs|config_clock|config_in_modes|steps1to4|steps5to8'
    functions steps guard_change
}

# Answers of the proofs: all, those that say no more than `search rules`, and those whose words stand in another answer too.
answers() {
    grep -rnE '^(abbrev )?pub [^ ]+ : goal\.' crates/*/proofs --include=Answers.antt | sed 's/ : goal.*//' || true
}
answers_by_words() {
    # shellcheck disable=SC2016
    find crates/*/proofs -name Answers.antt | sort | xargs awk '
        /^(abbrev )?pub [^ ]+ : goal\./ { name = $0; sub(/^(abbrev )?pub /, "", name); sub(/ .*/, "", name); place = FILENAME ":" FNR ": " name; text = ""; next }
        place != "" && /^$/ { print text "\t" place; place = ""; next }
        place != "" { line = $0; sub(/^ +/, "", line); if (index(line, name) == 1) line = substr(line, length(name) + 1); text = text line " " }
        END { if (place != "") print text "\t" place }'
}
found_alone() {
    answers_by_words | awk -F '\t' '$1 ~ /^ *[a-z]* = search rules *$/ { print $2 }'
}
answers_alike() {
    answers_by_words | shared 2 no
}

kind 1a 'own enums of the shape of Option or Result' on awk -f "$work/enums.awk"
kind 1b 'fields that are a refusal, a flag or 0 for none beside a value' \
    lines '^ +(pub (refusal|stop|warning|usb_div): u8|failed: bool|pub usb: bool),$'
kind 1c 'a number that stands for none' numbers_for_none
kind 1d 'a number tested for being no refusal' lines '(refusal|refused|stop|ended|warning|unfit_for\(h\)) (!=|==) 0'
kind 1e 'functions that answer a refusal or a clause as a number' of 'refusal functions'
kind 1f 'parameters that are a refusal as a number' lines 'fn [a-z_]*\(.*(refusal|stop): u8|^    refusal: u8,$'
kind 1g 'refusals and clauses written as a number' refusals_by_number
kind 1h 'registers by number' register_numbers
kind 1i 'selects and codes by number' codes
kind 1j 'entries and waits by number' entries_and_waits
kind 2a 'functions of one shape: equal but for names, numbers and texts' shapes
kind 2b 'types and tables of one shape' twin_types
kind 2c 'functions that do the same at another size, type or constant' twin_functions
kind 2d 'the beginning and the end of a call, written out' lines '(admitted|planned|decoded)\.refusal != 0|(call|crate)::finish\('
kind 2e 'a code that is a constant in several crates' lines 'const (DLL1|USB_DLL2|MPI_DLL[12]|FLASH_DLL2): u(8|32)'
kind 3a 'while' lines '\bwhile '
kind 3b 'for over numbers' lines '\bfor [a-z_]+ in .*\.\.'
kind 4a 'equality and order' equality
kind 4b 'conversions' conversions
kind 4c 'a truth value made of a number' lines '(\]|half|\)) == 1(,|$)'
kind 4d 'numbers made of bytes, and bytes of numbers' bytes_by_hand
kind 4e 'lines with a cast' lines ' as (u8|u16|u32|u64|usize|i8)\b'
kind 4f 'a value copied field by field, or a list element by element' copies
kind 4g 'text put together or printed by a function of its own' texts
kind 4h 'types with Clone and Copy alone' lines 'derive\(Clone, Copy\)\]'
kind 4i 'what a method of the library does' by_hand
kind 5a 'facts in the contracts of three functions or more' facts_of_three
kind 5b 'machine, journal and answers together' together '(m: (&mut )?Machine|self)' 'journal: &mut' 'answers: '
kind 5c 'machine and journal together' machine_and_journal
kind 5d 'head and journal as lent, with answers or without' together '(buffer|head): &(mut )?.u8' 'journal: &'
kind 5e 'text and place together' together 'text: &mut' 'at: usize'
kind 5f 'bytes or tasks with a size or a count' together '(bytes|buffer|tasks|regs): ' '(size|count): '
kind 5g 'plan with its target, sources or divider' together '(p|plan): Plan' '(target|target_hclk|sources|usb_div|core): (H|T|S|u8)'
kind 6a 'a length, a count or a place beside what it is of' counts_beside
kind 6b 'searches by hand' searches
kind 6c 'a buffer cut off by a number beside it' lines '\[\.\.[a-z]+\]|\[[a-z.]+\.\.\]'
kind 7a 'enums that say what to run' calls_by_enum
kind 7b 'their arms' lines '(Call|Recorded|Reading)::[A-Z][A-Za-z0-9]*(\([a-z_]+\))? => '
kind 7c 'lists of what to run' lists_of_calls
kind 7d 'halves and steps of a transition as functions' halves
kind 8a 'answers of proofs' answers
kind 8b 'answers that only say search rules' found_alone
kind 8c 'answers whose words stand in another answer' answers_alike
