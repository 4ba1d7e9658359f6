# What the tests of the built library share: the library itself, cargo, and commands that are shown only if they fail. To be sourced under `set -euo
# pipefail`, with `name` set to the test's name.
source "$(dirname "${BASH_SOURCE[0]}")/room.bash"
export CARGO_TARGET_DIR=$root/rust/target
export MXP_LIB_DIR=$root/target/staticlib
library=$MXP_LIB_DIR/libmxp.a

# Runs a command with its output kept in log, to be shown only if the command fails.
quietly() { "$@" > "$room/log" 2>&1 || { cat "$room/log" >&2; fail "failed: $*"; }; }

# Proves and builds the library where that has not been done yet.
build_library() { quietly "$root/tools/built" libmxp.a; }

cargo_in_rust() { (cd "$root/rust" && cargo "$@" --quiet --release --offline --locked); }

# A package, and options to choose among its tests: runs them, which must be some, and leaves in passed how many there were.
run_tests() {
    quietly cargo_in_rust test --package "$@"
    passed=$(($(sed -n 's/^test result: ok\. \([0-9]*\) passed.*/\1/p' "$room/log" | paste -s -d +)))
    [ "$passed" -gt 0 ] || fail "no tests: $*"
}
