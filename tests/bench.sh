#!/usr/bin/env bash
# The benchmark, run short: both sides must answer the same on everything that is measured, and no call of the library may ask for memory. What it
# measures is reported; floors are checked where it is recorded (tools/bench). Then the benchmark's own tests.
set -euo pipefail
name=bench
source "$(dirname "${BASH_SOURCE[0]}")/lib/library.bash"

build_library
"$root/tools/bench" --short
run_tests bench
echo "bench: $passed tests passed"
