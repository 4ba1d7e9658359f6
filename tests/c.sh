#!/usr/bin/env bash
# The library from C: a program that is compiled against include/mxp.h makes every call and looks at every number of every answer. The archive
# defines the calls that the header declares and no others, and needs no function that could allocate.
set -euo pipefail
name=c
source "$(dirname "${BASH_SOURCE[0]}")/lib/library.bash"
header=$root/include/mxp.h

build_library
quietly gcc -std=c99 -Wall -Wextra -Werror -pedantic -O2 -I "$root/include" "$root"/tests/c/*.c "$library" -o "$room/calls"
"$room/calls" "$root/data/account/sample_of_the_document.list" "$root/data/verify/accepted_sample_of_the_document.trace" > "$room/said" ||
    fail "a call answers wrongly"
echo "c: $(cat "$room/said")"

# The archive's symbols of a kind. A line of one word names an object file.
symbols() { nm --extern-only "$1" "$library" | awk 'NF > 1 { print $NF }' | LC_ALL=C sort -u; }

sed -n 's/^void \(mxp_[a-z_]*\)(.*/\1/p' "$header" | LC_ALL=C sort > "$room/declared"
symbols --defined-only > "$room/defined"
diff "$room/declared" "$room/defined" >&2 || fail "include/mxp.h (<) and libmxp.a (>) do not have the same calls"
echo "c: libmxp.a defines the $(grep -c . "$room/defined") calls of include/mxp.h and no others"

# A compiler may make these of any loop over bytes; none of them allocates.
symbols --undefined-only > "$room/needed"
! grep -vxE 'memcpy|memmove|memset|memcmp|bcmp' "$room/needed" >&2 || fail "libmxp.a needs more than functions over lent bytes"
echo "c: libmxp.a needs nothing but: $(paste -s -d ' ' "$room/needed")"
