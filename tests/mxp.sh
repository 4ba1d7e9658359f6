#!/usr/bin/env bash
# The safe crate over the library, rust/mxp: its tests pass, and the examples in its documentation run.
set -euo pipefail
name=mxp
source "$(dirname "${BASH_SOURCE[0]}")/lib/library.bash"

build_library
run_tests mxp --lib --tests
written=$passed
run_tests mxp --doc
echo "rust/mxp: $((written + passed)) tests passed, $passed of them examples of its documentation"
