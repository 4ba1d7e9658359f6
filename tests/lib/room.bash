# What tests share: the repository's root, a room for their files, and a word for failing. To be sourced under `set -euo pipefail`, with `name` set to the
# test's name.
root=$(cd "$(dirname "${BASH_SOURCE[0]}")/../.." && pwd)
room=$(mktemp -d)
trap 'rm -rf "$room"' EXIT

fail() { printf '%s: %s\n' "$name" "$*" >&2; exit 1; }
