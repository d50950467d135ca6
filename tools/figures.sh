#!/usr/bin/env bash
# Proves every crate from nothing, one at a time by one process, and writes the figures of docs/CLAIMS.md: per crate the lines,
# the axioms that its check prints, and its time; last, the sums. The first crate's time has rt's own start in it.
set -euo pipefail
cd "$(dirname "$0")/.."
. tools/crates.sh

logs=$(mktemp -d)
trap 'rm -rf "$logs"' EXIT
table=$logs/table

# rt says of a crate all at once when it is done: a line '== NAME', and then the prover's lines. So its time is the time since
# the crate before.
name='' begun=$SECONDS
rt all verdict --jobs 1 | while IFS= read -r line; do
    if [[ $line == '== '* ]]; then
        name=${line#== }
        echo $((SECONDS - begun)) >"$logs/$name.seconds"
        begun=$SECONDS
    fi
    [ -z "$name" ] || echo "$line" >>"$logs/$name.log"
    echo "$line"
done

# lines FOLDER PATTERN: lines that are neither empty nor a comment.
lines() {
    find "$1" -name "$2" -exec cat {} + 2>/dev/null | grep -cvE '^[[:space:]]*(//|--|$)' || true
}

{
    echo "| Crate | Functions | Axioms | Code | Specs | Proofs | Must-fail edits | Check (s) |"
    echo "|---|---|---|---|---|---|---|---|"
    for name in $(crate_names); do
        crate=crates/$name
        verdict=$(grep '^logic=proved' "$logs/$name.log" | tail -n 1)
        functions=$(sed -n 's/.*functions=\([0-9]*\).*/\1/p' <<<"$verdict")
        # The check of a library says nothing of axioms; that of a program or an archive does, of all that is below it too.
        axioms=$(sed -n 's/.* axioms=\([0-9]*\).*/\1/p' <<<"$verdict")
        ! grep -q '^axioms ' "$logs/$name.log" || axioms=${axioms:-0}
        seconds=$(cat "$logs/$name.seconds")
        edits=$(find "$crate" -path '*/must-fail/*.edit' | wc -l)
        echo "| $name | $functions |${axioms:+ $axioms} | $(lines "$crate/src" '*.rt') | $(lines "$crate/specs" '*.antt') | $(lines "$crate/proofs" '*.antt') | $edits | $seconds |"
    done
} | awk -F '|' '
    { print }
    NR > 2 { for (i = 3; i < NF; i++) sum[i] += $i }
    # The axioms are not added up: those of the programs are mostly the same.
    END { print "| all | " sum[3] " | | " sum[5] " | " sum[6] " | " sum[7] " | " sum[8] " | " sum[9] " |" }
' >"$table"

awk -v table="$table" '
    /^<!-- figures -->$/ { print; while ((getline line < table) > 0) print line; skip = 1; next }
    /^<!-- end of figures -->$/ { skip = 0 }
    !skip { print }
' docs/CLAIMS.md >"$logs/claims"
cp "$logs/claims" docs/CLAIMS.md
cat "$table"
