#!/usr/bin/env bash
# Prints docs/EVIDENCE.md: runs the whole comparison with the Rust, with the options that are given,
# and puts its tables under what was run. COMMIT names the library, by default the last commit that
# changed its sources. Fails where the comparison does.
set -euo pipefail
cd "$(dirname "$0")/.."

commit=${COMMIT:-$(git log -1 --format=%h -- crates crates.txt)}
command="oracle compare --table${*:+ $*}"
tables=$(oracle/target/release/oracle compare --table "$@") || {
    printf '%s\n' "$tables" >&2
    exit 1
}

cat <<TEXT
# Evidence

Every call of \`librikkovan.a\` gave the answer, the values and the bytes that were wanted, in every query below. The Rust is the original of sifli-rs \
at commit aa4c19c5cf, on stand-in registers; the cycles of delays are held to document 02, which rounds them up; load check, booking, release, \
look-up, guarded change, the reading of fit and moments are not in it, and are held to models that were written from document 01, the look-up's from \
document 02. [oracle/README.md](../oracle/README.md) says what is compared and how.

- Library: commit $commit.
- Command: \`$command\`; \`make evidence\` writes this file anew, with COUNT, SECONDS and SEED as for \`make compare\`.
- Systematic groups have the same queries each time. The random groups are drawn from the seed, each as many queries as the tables say; the same command has the same queries.
- A query is one call with all that is lent to it. Compared are the answer word, every lent byte and word, and those on both sides of them. Of a list each call is one query.
- The run fails where an answer that a call can give never comes, or one of its delays never comes both as the Rust has it and a cycle longer.

TEXT
printf '%s\n' "$tables" | sed -e 's/^seed \(.*\)/Seed: \1./' -e 's/^total: \(.*\) compared, \(.*\) different/Total: \1 queries, \2 different./'
