# What the tests of a program share: it is run on its vectors and on other inputs, and what it prints is compared. To be sourced under `set -euo
# pipefail`, with `name` set to the program's name. Document 01 says nothing of a program's exit status; only one of a time-out or a crash is a failure.
source "$(dirname "${BASH_SOURCE[0]}")/room.bash"
program=$("$root/tools/built" "$name") || fail "the program is not built"
vectors=$root/data/$name

# Runs the program on standard input, with what it prints in out and its complaints in said.
run() {
    local status=0
    timeout 20 "$program" > "$room/out" 2> "$room/said" || status=$?
    [ "$status" -lt 124 ]
}

# An input's name and the file of what is expected for it; says so if anything else was printed.
printed() {
    cmp -s "$2" "$room/out" && return
    printf '%s: %s: expected (<) and printed (>):\n' "$name" "$1" >&2
    diff "$2" "$room/out" | head -n 20 >&2
    return 1
}

# Two files of names in any order, and what each is called; both must hold the same names.
same_names() {
    diff <(LC_ALL=C sort "$1") <(LC_ALL=C sort "$2") >&2 || fail "$3 (<) and $4 (>) do not name the same vectors"
}

# The names of the files of a folder with an ending.
names_of() { (cd "$1" && printf '%s\n' *."$2") | sed "s/\.$2\$//"; }

count=0
wrong=0
# A vector's name, its input and the file of what is expected: runs the program on it and counts.
try() {
    count=$((count + 1))
    run < "$2" || fail "$1: no answer"
    printed "$1" "$3" || wrong=$((wrong + 1))
}

# All vectors were tried, and answered rightly.
all_right() { [ "$count" -gt 0 ] && [ "$wrong" -eq 0 ] || fail "$wrong of $count vectors are answered wrongly"; }

# A vector's name, its input, the file of what is expected and a count of bytes: the program gets so many, and the others after a pause; it is run
# from another folder by its command; and it is given a folder to read, which must make it complain and print nothing.
other_ways() {
    run < <(head -c "$4" "$2"; sleep 0.2; tail -c +"$(($4 + 1))" "$2") || fail "$1 in parts: no answer"
    printed "$1 in parts" "$3"

    (cd "$room" && "$root/bin/$name" < "$2" > out)
    printed "$1 by bin/$name" "$3"

    run < "$room" || fail "a folder as input: no end"
    [ ! -s "$room/out" ] && [ -s "$room/said" ] || fail "a folder as input: not just a complaint"
}
