#!/bin/sh
# Loops of private instructions and the same loops in a plain C switch interpreter built by `cc -O2`, in turn: a
# counting loop of 100,000,000 turns or as many as the argument says, and a loop of eight instructions, each of
# another kind, of half as many. It prints the processor seconds of both, and C's time divided by ours: 1.00 means
# as fast as C, and below 0.90 is a defect. Each is done once. It needs `rt` and `cc` on the path.
set -e
cd "$(dirname "$0")"
turns="${1:-100000000}"
. ../measure.sh
cc -O2 -o "$work/switch" switch.c

for loop in "counting $turns" "mixed $((turns / 2))"; do
    set -- $loop
    sed "s/\"args\":\[0,/\"args\":[$2,/" "$1.json" > "$work/job.json"
    for _ in $(repeats 1); do
        measure "$1.ours" "$built" private_run < "$work/job.json"
        measure "$1.theirs" "$work/switch" < "$work/job.json"
    done
    cmp "$work/$1.ours.printed" "$work/$1.theirs.printed"
    echo "$1 $(fastest "$1.ours") $(fastest "$1.theirs")" |
        awk '{ printf "%s: private runs %.2f s, C switch %.2f s, ratio %.2f\n", $1, $2 / 1e9, $3 / 1e9, $3 / $2 }'
done
