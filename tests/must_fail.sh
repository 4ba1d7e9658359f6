#!/usr/bin/env bash
# Each must-fail edit was refused in a proof: not because a proof file names something that is not there any more, and not because the prover came to a
# limit of its own. That the edited program is wrong is not seen here: docs/DEMANDS.md names for each edit an input on which the two differ. `rt ci` has
# tried the edits, and the gate's log says what became of each.
set -euo pipefail
cd "$(dirname "${BASH_SOURCE[0]}")/.."
log=.ci/log/rt-ci.log
[ -f "$log" ] || { echo "must_fail: there is no $log: run .ci/run first" >&2; exit 1; }

edits=0
unfit=0
for edit in crates/*/must-fail/*.edit; do
    crate=$(basename "$(dirname "$(dirname "$edit")")")
    edits=$((edits + 1))
    said=$(grep -a -m 1 -F -e "rt: must-fail $crate/$(basename "$edit"): " "$log" || true)
    case $said in
        '') reason="was not tried" ;;
        *": refused, as it must be (only because a proof file names what the edit took away"*) reason="makes a proof name what is not there" ;;
        *"can be named from here"* | *"is not in scope"* | *"has no field"* | *"Parse"* | *"does not cover"*) reason="makes a proof name what is not there" ;;
        *": refused, as it must be (only by a limit"* | *"gave up at one of its limits"*) reason="is refused by a limit of the prover alone" ;;
        *": refused, as it must be: "*) continue ;;
        *) reason="is not refused in a proof" ;;
    esac
    unfit=$((unfit + 1))
    printf '%s %s: %.300s\n' "$edit" "$reason" "$said" >&2
done
[ "$edits" -gt 0 ] && [ "$unfit" -eq 0 ]
echo "$edits must-fail edits, each refused in a proof"
