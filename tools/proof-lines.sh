#!/bin/sh
# proof-lines.sh: for each crate the lines of code, of contracts and definitions, and of proof, without blank lines and comments, and
# the lines of proof for each line of code; as a table in Markdown.
set -eu
cd "$(dirname "$0")/.."

# lines COMMENT FILE..: counts what is neither blank nor a comment.
lines() {
    comment=$1
    shift
    cat /dev/null "$@" | grep -cvE "^[[:space:]]*($comment|\$)" || true
}

# Words of a contract: its clauses, and the names that they use.
contract='^[[:space:]]*(requires|ensures|ghost) '

echo '| crate | code | contracts | definitions | proof | proof / code |'
echo '|---|---|---|---|---|---|'
for folder in crates/*/; do
    name=$(basename "$folder")
    # shellcheck disable=SC2046
    set -- $(find "$folder"src -name '*.rt')
    clauses=$(cat "$@" | grep -cE "$contract" || true)
    code=$(($(lines // "$@") - clauses))
    # shellcheck disable=SC2046
    definitions=$(lines -- $(find "$folder"specs -name '*.antt' 2>/dev/null))
    # shellcheck disable=SC2046
    proof=$(lines -- $(find "$folder"proofs -name '*.antt' 2>/dev/null))
    echo "$name $code $clauses $definitions $proof"
done | awk '
    { printf "| `%s` | %d | %d | %d | %d | %s |\n", $1, $2, $3, $4, $5, $2 ? sprintf("%.1f", $5 / $2) : ""
      for (i = 2; i <= 5; i++) sum[i] += $i }
    END { printf "| all | %d | %d | %d | %d | %.1f |\n", sum[2], sum[3], sum[4], sum[5], sum[5] / sum[2] }'
