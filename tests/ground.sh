#!/usr/bin/env bash
# `bin/ground` from another folder prints what the vectors say, and a program without its vectors says so and counts nothing.
set -euo pipefail
name=ground
source "$(dirname "${BASH_SOURCE[0]}")/lib/room.bash"

cd "$room"
"$root/bin/ground" > out
cmp out "$root/crates/ground/stdout"

program=$("$root/tools/built" ground)
"$program" > none 2> said
[ ! -s none ]
[ "$(grep -c . said)" -eq 12 ]
echo "bin/ground prints the kept answers"
