#!/usr/bin/env bash
# changed.sh [--list] [NAME...]: for daily work, proves the crates that a change touches and those above them, tries their
# must-fail edits and runs their programs; the gate is make test. With --list it only says which crates these are.
# The crates named count as changed. Without a name it is those that differ from the commit BASE, by default the one where this
# branch left origin/main, or HEAD: their files, committed or not, or their line in crates.txt. Where only must-fail edits of a
# crate differ, nothing above it is touched.
set -euo pipefail
shopt -s nullglob
cd "$(dirname "$0")/.."
. tools/crates.sh

fail() {
    echo "$*" >&2
    exit 2
}

# in_list NAME...: those of the crates in crates.txt that are among the names, in its order.
in_list() {
    crate_names | grep -Fxf <(printf '%s\n' "$@") || true
}

# without NAMES NAMES: the first names without the second.
without() {
    grep -vFxf <(echo "$2") <<<"$1" || true
}

# A line 'NAME files' or 'NAME edits' for each changed file or line, as it is one of the must-fail folder or not.
differences() {
    {
        git diff --name-only --no-renames -z "$base" -- crates
        git ls-files --others --exclude-standard -z -- crates
    } | tr '\0' '\n' | awk -F / 'NF > 2 { print $2, ($3 == "must-fail" ? "edits" : "files") }'
    comm -13 <(git show "$base:crates.txt" 2>/dev/null | entries /dev/stdin | sort) <(entries | sort) |
        awk '{ sub(/:.*/, ""); print $1, "files" }'
}

# say WHAT NAMES: a line of the selection, where there are any.
say() {
    [ -z "$2" ] || echo "$1:" $2
}

list=no
if [ "${1:-}" = --list ]; then
    list=yes
    shift
fi
if [ $# -gt 0 ]; then
    what=Named
    changed=$(printf '%s\n' "$@")
    edited=
else
    base=${BASE:-$(git merge-base HEAD origin/main 2>/dev/null || echo HEAD)}
    base=$(git rev-parse --short --verify --quiet "$base^{commit}") || fail "There is no commit ${BASE:-HEAD}."
    what="Changed since $base"
    differences=$(differences)
    changed=$(awk '$2 == "files" { print $1 }' <<<"$differences" | sort -u)
    edited=$(awk '$2 == "edits" { print $1 }' <<<"$differences" | sort -u)
fi
for name in $(without "$changed"$'\n'"$edited" "$(in_list $changed $edited)"); do
    # A crate that is gone, from the list and from its place, is no concern; those that depended on it have changed lines.
    [ $# -eq 0 ] && ! has_files "$name" || fail "crates.txt does not list $name."
done
changed=$(in_list $changed)
touched=$(in_list $(above $changed))
edited=$(without "$(in_list $edited)" "$touched")
crates=$(in_list $touched $edited)
if [ -z "$crates" ]; then
    echo "No crate has changed since $base."
    exit
fi

edits=0
for name in $crates; do
    found=("crates/$name/must-fail"/*.edit)
    edits=$((edits + ${#found[@]}))
done
say "$what" "$changed"
say "Above them" "$(without "$touched" "$changed")"
say "Changed in their must-fail edits alone" "$edited"
echo "Crates: $(wc -l <<<"$crates"); must-fail edits: $edits."
[ "$list" = no ] || exit 0

# rt works on a copy, so the files may change meanwhile. It takes up the crates below these too, where no run on this machine
# has passed them as they are, and keeps for the gate what it passes.
log=$(mktemp)
trap 'rm -f "$log"' EXIT
rt ci $crates | tee "$log"
# It passes where an edit cannot be applied or read.
! grep -q '^rt: note: bad must-fail edits' "$log" || fail "There are must-fail edits that say nothing: each is named above as a BAD EDIT."
