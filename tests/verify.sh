#!/usr/bin/env bash
# `verify` prints for each vector of data/verify the line that expected.txt says, also if the input comes in parts and from another folder by
# bin/verify, and nothing but a complaint if it cannot read its input.
set -euo pipefail
name=verify
source "$(dirname "${BASH_SOURCE[0]}")/lib/program.bash"

cut -f 1 "$vectors/expected.txt" > "$room/named"
names_of "$vectors" trace > "$room/kept"
same_names "$room/named" "$room/kept" expected.txt "the trace files"

while IFS=$'\t' read -r vector line; do
    printf '%s\n' "$line" > "$room/line"
    try "$vector" "$vectors/$vector.trace" "$room/line"
done < "$vectors/expected.txt"
all_right

IFS=$'\t' read -r vector line < <(grep -m 1 '^accepted_sample' "$vectors/expected.txt")
printf '%s\n' "$line" > "$room/line"
other_ways "$vector" "$vectors/$vector.trace" "$room/line" 1000
echo "verify answers $count vectors as expected"
