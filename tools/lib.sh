#!/usr/bin/env bash
# Proves the library and writes it: target/staticlib/libpairing.a, which joins the archives of all crates capi_*.
# Shows a line for each crate that is proved; the prover's own lines go to a log. Where the archive and all that it is made of
# are as they were when it was written, there is nothing to do.
set -euo pipefail
cd "$(dirname "$0")/.."
. tools/crates.sh

log=target/lib.log
folder=target/staticlib
library=$folder/libpairing.a
sums=$folder/inputs.sum

fail() {
    echo "$*" >&2
    exit 1
}

# A line for each thing that the library is made of: the toolchain, the machine, these scripts, the crates' list and each
# file, but the must-fail edits and what rt makes, of the crates capi_* and of those below them.
inputs() {
    local name
    rt version
    uname -m
    sha256sum tools/lib.sh tools/crates.sh crates.txt
    for name in $(below $parts | sort); do
        # The toolchain's own libraries have no folder here.
        [ -d "crates/$name" ] || continue
        find "crates/$name" -type f ! -path '*/must-fail/*' ! -path "crates/$name/out/*" -exec sha256sum {} + | sort -k 2
    done
}

# Proves each part, and what is below it, over what earlier checks kept in out/, and gathers the archives.
prove() {
    local name
    for name in $parts; do
        rm -f "crates/$name/out/lib$name.a"
        (cd "crates/$name" && rt lib) || {
            echo "rt: $name NOT PROVED"
            return 1
        }
        cp "crates/$name/out/lib$name.a" "$folder"
    done
}

# The prover's verdicts, one for each crate that it took up, with the time. A library that is built already has none.
verdicts() {
    local line name='' begun=$SECONDS
    while IFS= read -r line; do
        case $line in
        'rt: chose --jobs '*' for '*) name=${line##* } begun=$SECONDS ;;
        'logic=proved '*) echo "  $name proved ($((SECONDS - begun)) s)" ;;
        'logic='*) echo "  $name NOT PROVED" ;;
        esac
    done
}

# join FOLDER: writes the library of the parts' archives. Each is one object, in which only the functions for C are seen from
# outside; it goes in under its crate's name, since two archives may name theirs alike.
join() {
    local objects=$1 name exported due
    for name in $parts; do
        [ "$(ar t "$folder/lib$name.a" | wc -l)" -eq 1 ] || fail "$folder/lib$name.a is not one object."
        ar p "$folder/lib$name.a" >"$objects/$name.o"
    done
    # D: no times and no owners, so that the same objects make the same archive.
    ar rcsD "$objects/joined.a" "$objects"/*.o
    exported=$(nm -g --defined-only "$objects/joined.a" | awk 'NF == 3 { print $3 }' | sort)
    [ -z "$(uniq -d <<<"$exported")" ] || fail "More than one crate exports:" $(uniq -d <<<"$exported")
    due=$(for name in $parts; do find "crates/$name/src" -name '*.rt' -exec cat {} +; done |
        sed -n 's/^ *pub \(unsafe \)\{0,1\}extern "C" fn \([A-Za-z0-9_]*\).*/\2/p' | sort)
    [ "$exported" = "$due" ] || fail "The archives do not export what the crates declare:" $(comm -3 <(echo "$exported") <(echo "$due"))
    mv "$objects/joined.a" "$library"
}

command -v rt >/dev/null || fail "The Rattle toolchain is missing: there is no command rt."
parts=$(crate_names | sed -n '/^capi_/p')
[ -n "$parts" ] || fail "crates.txt lists no crate capi_*, so there is no library to build."
mkdir -p "$folder"
made_of=$(inputs)
if [ -f "$sums" ] && [ -f "$library" ] && cmp -s "$sums" <(echo "$made_of" && sha256sum "$library"); then
    echo "$library is proved, and nothing that it is made of has changed."
    exit
fi
# No archive of other files stays behind where these are not proved.
rm -f "$sums" "$folder"/lib*.a
echo "Proving the library; what the prover says goes to $log."
prove 2>&1 | tee "$log" | verdicts || fail "The library is not proved, so it is not built. See $log."
objects=$(mktemp -d "$folder/objects.XXXXXX")
trap 'rm -rf "$objects"' EXIT
join "$objects"
echo "  $library is written"
# Files that have changed in the meantime are proved the next time.
if [ "$(inputs)" = "$made_of" ]; then
    (echo "$made_of" && sha256sum "$library") >"$sums"
fi
