# What the scripts that write example records share; sourced.

# bytes NUMBER COUNT: writes the number in so many bytes, high byte first.
bytes() {
    shift_by=$((8 * ($2 - 1)))
    while [ "$shift_by" -ge 0 ]; do
        octal=$(printf '%03o' $(($1 >> shift_by & 255)))
        # shellcheck disable=SC2059
        printf "\\$octal"
        shift_by=$((shift_by - 8))
    done
}
