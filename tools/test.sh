#!/usr/bin/env bash
# The whole gate. Stops at the first failure; its last line adds up what rt ci and the tests say of themselves.
# rt ci runs at the top of the checkout as it stands: nothing is copied, removed or left out before it.
set -euo pipefail
shopt -s nullglob
cd "$(dirname "$0")/.."
. tools/crates.sh

logs=$(mktemp -d)
trap 'rm -rf "$logs"' EXIT
passed=0

fail() {
    echo "test: $*" >&2
    exit 1
}

# A crate folder that crates.txt does not list would go unproved.
check_list() {
    local folder name names
    names=$(crate_names)
    for folder in crates/*/; do
        name=$(basename "$folder")
        grep -qx "$name" <<<"$names" || ! has_files "$name" || fail "crates.txt does not list crates/$name"
    done
}

# run NAME SCRIPT COMMAND...: runs the command and adds up the numbers that sed's SCRIPT finds in its output.
run() {
    local name=$1 script=$2 counts count
    shift 2
    "$@" | tee "$logs/$name"
    counts=$(sed -n "$script" "$logs/$name")
    [ -n "$counts" ] || fail "$name did not say how many tests passed"
    for count in $counts; do
        passed=$((passed + count))
    done
}

# same_output NAME: target/tests/NAME and then tests/NAME.py must print what the proved program crates/NAME prints. Counts as
# one test.
same_output() {
    "target/tests/$1" >"$logs/$1.stdout"
    python3 -B "tests/$1.py" >>"$logs/$1.stdout"
    cmp "$logs/$1.stdout" "crates/$1/stdout" || fail "tests/$1 and crates/$1 print different lines"
    echo "test $1 prints what crates/$1 prints ... ok"
    echo "test result: ok. 1 passed; 0 failed; 0 ignored; 0 measured; 0 filtered out"
}

# answers: every list of the answers is as answers.toml makes it. Counts as one test.
answers() {
    tools/answers.py --check || fail "the lists of the answers differ"
    echo "test every list of the answers is made from answers.toml ... ok"
    echo "test result: ok. 1 passed; 0 failed; 0 ignored; 0 measured; 0 filtered out"
}

# edits_refused: rt ci passes where a must-fail edit cannot be applied or read. Here that is a failure: its line 'rt: ok' must be
# there, and name no bad edit.
edits_refused() {
    local ok
    ok=$(sed -n 's/^rt: ok; handles allowed: none; //p' "$logs/rt-ci")
    [ -n "$ok" ] || fail "rt ci did not say that all is well with no handle allowed"
    ! grep -qE ', [1-9][0-9]* bad(;|$)' <<<"$ok" || fail "there are must-fail edits that say nothing: rt ci names each as a BAD EDIT"
}

last_line='$s/^\([0-9][0-9]*\) passed, 0 failed$/\1/p'
results='s/^test result: ok\. \([0-9][0-9]*\) passed; 0 failed;.*/\1/p'

check_list
run answers "$results" answers
run rt-ci "$last_line" rt ci
edits_refused

# Built here, so that the copy in which the documents' commands run has the library too, and does not prove it once more.
tools/lib.sh
library=target/staticlib/libpairing.a

# Each Rust test file is a program of its own: independent implementations, compared with what the proved programs write,
# and the check of docs/CLAIMS.md.
mkdir -p target/tests
for source in tests/*.rs; do
    name=$(basename "$source" .rs)
    rustc --edition 2021 -O --test "$source" -o "target/tests/$name"
    run "$name" "$results" "target/tests/$name"
done

# The generator's outputs, by C++'s own generator, and those of seed arrays by CPython's.
cxx=(c++ -std=c++17 -Wall -Wextra -Werror -O2 -Iinclude)
"${cxx[@]}" tests/run_mt19937.cpp -o target/tests/run_mt19937
run run_mt19937 "$results" same_output run_mt19937

# unused_answer COMPILER...: the compiler takes the header, and warns where an answer is dropped. Counts as one test.
unused_answer() {
    local compile=("$@" -Iinclude -Werror=unused-result -c tests/unused_answer.c -o "$logs/unused.o")
    "${compile[@]}" -DUSED || fail "$1 refuses the header"
    ! "${compile[@]}" 2>"$logs/unused.err" || fail "$1 does not warn of an unused answer"
    grep -q 'unused-result' "$logs/unused.err" || fail "$1 refuses an unused answer for another reason"
    echo "test $1 warns of an unused answer ... ok"
    echo "test result: ok. 1 passed; 0 failed; 0 ignored; 0 measured; 0 filtered out"
}

# seed_arrays: the library against the outputs of CPython's generator.
seed_arrays() {
    python3 tests/seed_arrays.py | target/tests/seed_arrays
}

# forged: under a known key tests/forge.py finds a message with the digest of another, and under the next key they differ, by
# the library's own digests. Counts as one test.
forged() {
    local seed message forged after
    printf 'depot 7, gate B, scanner 0451' >"$logs/message"
    for seed in 0 5489 4294967294; do
        python3 -B tests/forge.py "$seed" "$(cat "$logs/message")" 'depot 9' >"$logs/forged"
        message=$("$pairing" digest --seed "$seed" "$logs/message")
        forged=$("$pairing" digest --seed "$seed" "$logs/forged")
        after=$("$pairing" digest --seed $((seed + 1)) "$logs/forged")
        [ "$message" = "$forged" ] || fail "the forged message has another digest under the key of seed $seed"
        [ "$after" != "$("$pairing" digest --seed $((seed + 1)) "$logs/message")" ] || fail "one digest under the key after seed $seed"
    done
    echo "test forged messages have the digest that they were forged for ... ok"
    echo "test result: ok. 1 passed; 0 failed; 0 ignored; 0 measured; 0 filtered out"
}

# The proved library, called from Rust, with the full number of random calls, from C and from C++.
unset PAIRING_RANDOM_CALLS
CARGO_TARGET_DIR=target/agent run agent "$results" \
    cargo test --manifest-path agent/Cargo.toml --release --offline -- --show-output
cc -std=c11 -Wall -Wextra -Werror -O2 -Iinclude tests/c_interface.c "$library" -o target/tests/c_interface
run c_interface "$results" target/tests/c_interface
cc -std=c11 -Wall -Wextra -Werror -O2 -Iinclude tests/c_incremental.c "$library" -o target/tests/c_incremental
run c_incremental "$results" target/tests/c_incremental
run unused_in_c "$results" unused_answer cc -std=c11
run unused_in_cxx "$results" unused_answer c++ -std=c++17 -x c++
"${cxx[@]}" tests/stretch.cpp "$library" -o target/tests/stretch
run stretch "$results" target/tests/stretch
"${cxx[@]}" tests/streams.cpp "$library" -o target/tests/streams
run streams "$results" target/tests/streams
"${cxx[@]}" tests/seed_arrays.cpp "$library" -o target/tests/seed_arrays
run seed_arrays "$results" seed_arrays
pairing=target/agent/release/pairing
run forged "$results" forged

echo "$passed passed, 0 failed"
