#!/bin/sh
# Nanoseconds of the processor for a round of calls of each leaf of the arena, with 16, 256 and 4,096 rows, and how
# many times as long the last takes as the first. A run makes 2,000,000 rounds, or as many as the argument
# says; what it takes without rounds is measured by itself and taken off. Each is done five times, in turn, and
# the fastest counts. It needs `rt` on the path.
set -e
cd "$(dirname "$0")"
rounds="${1:-2000000}"
. ../measure.sh
leaves="pool pool_region contexts regions nests groups cells"

for _ in $(repeats 5); do
    for leaf in $leaves; do
        for rows in 16 256 4096; do
            for each in "$rounds" 0; do
                measure "$leaf.$rows.$each" "$built" leaves "$leaf" "$rows" "$each"
                expect "$leaf.$rows.$each" "^$leaf, [0-9]* rows, $each rounds: "
            done
        done
    done
done

# The nanoseconds of all rounds of a leaf with a number of rows.
all() {
    spent "$1.$2.$rounds" "$1.$2.0"
}

printf 'leaf\t16 rows\t256 rows\t4096 rows\tthe last to the first\n'
for leaf in $leaves; do
    echo "$leaf $(all "$leaf" 16) $(all "$leaf" 256) $(all "$leaf" 4096) $rounds" |
        awk '{ printf "%s\t%.1f\t%.1f\t%.1f\t%.2f\n", $1, $2 / $5, $3 / $5, $4 / $5, $4 / $2 }'
done
