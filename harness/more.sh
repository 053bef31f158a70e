#!/usr/bin/env bash
# harness/more.sh SEED COUNT [BATCH]: holds the model against the Rust over COUNT more random lists of calls, made from SEED on.
# Works in a scratch repository in a temporary folder, BATCH lists at a time (20), and says which lists disagree.
# RAVEN_SRC may name the folder of the Rust (see build.rs).
set -euo pipefail
[ $# -ge 2 ] || { echo "usage: harness/more.sh SEED COUNT [BATCH]" >&2; exit 2; }
seed=$1 count=$2 batch=${3:-20}
. "$(dirname "$0")/scratch.sh"

agreed=0 differ=0 unsure=0 done=0
while [ "$done" -lt "$count" ]; do
    lists=$((count - done < batch ? count - done : batch))
    from=$((seed + done))
    "$harness" sample "$from" "$lists" crates/samples >/dev/null
    status=0
    (cd crates/samples && rt check) >out 2>&1 || status=$?
    bad=$(grep -oE 'Sampled\.antt:[0-9:]+ error: `agrees-[0-9]+`.*' out || true)
    if [ "$status" -ne 0 ] && [ -z "$bad" ]; then
        cat out
        echo "the check failed otherwise, at seed $from"
        exit 1
    fi
    agreed=$((agreed + lists))
    while read -r line; do
        [ -n "$line" ] || continue
        number=${line#*agrees-}
        number=${number%%\`*}
        at=$((from + number - 1))
        agreed=$((agreed - 1))
        case $line in
        *'step limit'*) unsure=$((unsure + 1)); echo "seed $at: not told within the step limit" ;;
        *) differ=$((differ + 1)); echo "seed $at: the model and the Rust DISAGREE" ;;
        esac
    done <<<"$bad"
    done=$((done + lists))
    echo "$done lists: $agreed agree, $differ disagree, $unsure not told"
done
"$harness" coverage "$seed" "$count"
[ "$differ" -eq 0 ]
