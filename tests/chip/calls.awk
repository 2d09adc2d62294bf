# awk -f calls.awk rikkovan.h calls.txt: a row for each call, from what the header declares,
#   CALL(recorded name, exported name, READING or ON_HEAD, clocks lent, what is passed..)
# The argument of a recorded line is a record that is only read, or the numbers of the call one after the other; a head that is only read
# stands beside numbers as one that is written does.
function fail(what) { print "calls.awk: " what >"/dev/stderr"; failed = 1; exit 1 }

# The next number of the call, of so many bits, at its place in the argument.
function number(bits,    at) { at = taken; taken += bits / 8; return "U" bits "(" at ")" }

function passed(parameter, next_one,    words, n, name, type, has_length) {
    n = split(parameter, words, " ")
    name = words[n]
    type = parameter
    sub(/ [a-z0-9_]+(\[[A-Z_]+\])?$/, "", type)
    has_length = next_one == "uint64_t " name "_len"
    if (has_length && type == "const uint8_t *") { only_read = name; return "ARGUMENT" }
    if (has_length && type == "uint8_t *" && name == "head") { kind = "ON_HEAD"; return "HEAD" }
    if (has_length && type == "uint32_t *" && name == "journal") return "JOURNAL"
    if (has_length && type == "const uint16_t *") return "ANSWERS"
    if (type == "uint32_t" && match(name, /\[.*\]$/)) { clocks = substr(name, RSTART + 1, RLENGTH - 2); return "CLOCKS" }
    if (type ~ /^uint(8|16|32)_t$/) { gsub(/[^0-9]/, "", type); return number(type) }
    fail("no rule for " parameter)
}

function row(call,    parameters, n, i, words) {
    kind = "READING"; clocks = "0"; taken = 0; words = ""; only_read = ""
    n = split(declared[call], parameters, /, */)
    for (i = 1; i <= n; i++) {
        words = words ", " passed(parameters[i], parameters[i + 1])
        if (words ~ /(ARGUMENT|HEAD|JOURNAL|ANSWERS)$/) i++
    }
    if (taken > 0 && only_read == "head" && sub(/ARGUMENT/, "HEAD", words)) kind = "ON_HEAD"
    if (taken > 0 && words ~ /ARGUMENT/) fail(call " has a record that is only read, and numbers")
    return kind ", " clocks words
}

NR == FNR {
    if (/^uint64_t rikkovan_/) open_ = 1
    if (!open_) next
    text = text " " $0
    if (!/;$/) next
    gsub(/ RIKKOVAN_RESTRICT|RIKKOVAN_RESTRICT /, "", text)
    gsub(/\*/, "* ", text); gsub(/ +/, " ", text)
    match(text, /rikkovan_[a-z0-9_]+/)
    name = substr(text, RSTART, RLENGTH)
    sub(/^[^(]*\(/, "", text); sub(/\);$/, "", text)
    declared[name] = text
    text = ""; open_ = 0
    next
}
/^#/ { next }
{
    call = "rikkovan_" $2
    if (!(call in declared)) fail(call " is not in the header")
    if ($1 != "-") print "CALL(" $1 ", " call ", " row(call) ")"
    delete declared[call]
}
END {
    if (failed) exit 1
    for (name in declared) fail(name " is not in calls.txt")
}
