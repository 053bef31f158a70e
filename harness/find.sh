#!/usr/bin/env bash
# harness/find.sh SEED: for the list of calls that SEED makes, says at which call the model and the Rust part, and in what.
# Works in a scratch repository in a temporary folder.
set -euo pipefail
[ $# -eq 1 ] || { echo "usage: harness/find.sh SEED" >&2; exit 2; }
. "$(dirname "$0")/scratch.sh"

# The number of which rt refuses the claims on bits that are 0.
number() {
    (cd crates/samples && rt check) >out 2>&1 || true
    grep -q '^logic=' out || { cat out >&2; exit 1; }
    value=0
    for bit in $(seq 0 13); do
        grep -q "error: \`bit-$bit\`" out || value=$((value + (1 << bit)))
    done
    echo "$value"
}

"$harness" find "$1" crates/samples
at=$(number)
"$harness" find "$1" crates/samples "$at" || exit 0
place=$(number)
"$harness" at "$1" "$at" "$place"
