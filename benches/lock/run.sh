#!/bin/sh
# Nanoseconds of the clock for an event at the locked door of a tenant: by one thread, by four threads at one
# tenant, and by four at a tenant each. 1,000,000 events are made in all, or about as many as the argument
# says; each is done five times, in turn, and the fastest counts. It needs `rt` on the path.
set -e
cd "$(dirname "$0")"
events="${1:-1000000}"
clock=clock
. ../measure.sh

# The events that each of so many threads makes over so many tenants.
measure_threads() {
    measure "$1.$2" "$built" locks steps "$((events / $1))" "$1" "$2"
    expect "$1.$2" ": $((events / $1 * $1)) events$"
}

for _ in $(repeats 5); do
    measure_threads 1 1
    measure_threads 4 1
    measure_threads 4 4
done
printf 'threads\ttenants\tnanoseconds\n'
for pair in '1 1' '4 1' '4 4'; do
    set -- $pair
    printf '%s\t%s\t%s\n' "$1" "$2" "$(($(fastest "$1.$2") / (events / $1 * $1)))"
done
