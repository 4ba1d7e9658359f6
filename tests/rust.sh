#!/usr/bin/env bash
# The Rust side: the reference and the harness pass their tests, the kept vectors are those that the reference makes, and the built library answers,
# fills traces and reads them back as the reference does, on full-size traces and lists and on 100,000 random ones of each. More of them:
#     rust/target/release/full data/verify data/list data/account --millions 5 --seed 1000000000
set -euo pipefail
name=rust
source "$(dirname "${BASH_SOURCE[0]}")/lib/library.bash"

run_tests reference
echo "reference: $passed tests passed"

for kind in verify list account; do
    quietly "$root/tools/vectors" "$kind" "$room/$kind"
    diff -r "$room/$kind" "$root/data/$kind" >&2 || fail "data/$kind differs from what the reference makes (tools/vectors $kind)"
    echo "data/$kind: $(cat "$room/log") as the reference makes them"
done

build_library
run_tests harness
echo "harness: $passed tests passed"
quietly cargo_in_rust build --package harness
"$CARGO_TARGET_DIR/release/full" "$root/data/verify" "$root/data/list" "$root/data/account"
