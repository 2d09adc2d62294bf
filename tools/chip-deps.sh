#!/usr/bin/env bash
# Installs with apt, as root, what optional parts of the test need and the machine has not, within two minutes. A line says how it went.
set -uo pipefail

# Seconds for what is fetched, and for all: so that an install that has begun is not cut off.
fetching=75
limit=120
packages=()
log=$(mktemp)
trap 'rm -f "$log"' EXIT
export DEBIAN_FRONTEND=noninteractive

say() { printf 'deps: %s\n' "$*"; }

for_command() { # COMMAND PACKAGE..
    command -v "$1" >/dev/null || packages+=("${@:2}")
}

# Within what is left of a limit.
apt() { # LIMIT WORDS..
    timeout -k 5 $(($1 > SECONDS ? $1 - SECONDS : 1)) apt-get -q "${@:2}" >>"$log" 2>&1
}

for_command arm-none-eabi-gcc gcc-arm-none-eabi libnewlib-arm-none-eabi
for_command qemu-system-arm qemu-system-arm
for_command node nodejs
for_command python3 python3
for_command clang clang
for_command objdump binutils
for_command pkg-config pkg-config
for_command groff groff

if [ ${#packages[@]} -eq 0 ]; then
    say 'nothing is missing'
elif apt $fetching update && apt $fetching install -y --no-install-recommends --download-only "${packages[@]}" &&
    apt $limit install -y --no-install-recommends "${packages[@]}"; then
    say "installed ${packages[*]} ($SECONDS s)"
else
    say "not installed: ${packages[*]} ($SECONDS s; $(grep -m 1 -E '^[EW]: ' "$log" || tail -n 1 "$log"))"
    exit 1
fi
