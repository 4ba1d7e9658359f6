#!/usr/bin/env bash
# `account` prints for each vector NAME.list of data/account what NAME.out says, also if the input comes in parts and from another folder by
# bin/account, and nothing but a complaint if it cannot read its input.
set -euo pipefail
name=account
source "$(dirname "${BASH_SOURCE[0]}")/lib/program.bash"

names_of "$vectors" list > "$room/lists"
names_of "$vectors" out > "$room/outs"
same_names "$room/lists" "$room/outs" "the lists" "the outputs"

while read -r vector; do
    try "$vector" "$vectors/$vector.list" "$vectors/$vector.out"
done < "$room/lists"
all_right

for vector in sample_of_the_document rows_574_in_bounds bytes_65536 bytes_65537; do
    # The first part ends inside a line.
    other_ways "$vector" "$vectors/$vector.list" "$vectors/$vector.out" 100
done
echo "account answers $count vectors as expected"
