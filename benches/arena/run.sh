#!/bin/sh
# What an advance of an arena's slot takes: the 23rd Fibonacci number as one job on one slot, with a task for
# each smaller number, alone and beside 64 and 4,000 rows that wait; the same in a plain Rust arena of the same
# parts, built by `rustc -O`, of which nothing is proved (`plain.rs`); the same on a tenant's cell, which records
# each step in the tenant's history and in the log of the slot's pass; and jobs that make 60 tasks in each of 16
# groups, cancel and wait for each group. Last, what it takes to make both arenas, of the largest limits. Each is
# done ten times, in turn, and the fastest counts, by the time of the processor. What it takes to make the arenas and the rows that wait is
# measured by itself and taken off. The argument is how many jobs there are, 1 if it is left out. It needs `rt`
# and `rustc` on the path.
set -e
cd "$(dirname "$0")"
jobs="${1:-1}"
. ../measure.sh
rustc --edition 2021 -O -o "$work/plain.built" plain.rs

for _ in $(repeats 10); do
    for waiting in 0 64 4000; do
        measure "fib.$waiting" "$built" arena fib 23 "$jobs" "$waiting"
        measure "none.$waiting" "$built" arena fib 1 "$jobs" "$waiting"
    done
    measure plain "$work/plain.built" 23 "$jobs"
    measure none.plain "$work/plain.built" 1 "$jobs"
    measure recorded "$built" arena recorded 23 "$jobs"
    measure none.recorded "$built" arena recorded 1 "$jobs"
    measure cancels "$built" arena cancels "$((jobs * 50))"
    measure none.cancels "$built" arena fib 1 "$((jobs * 50))" 0
    measure one.made "$built" arena fib 1 1 0
    measure made "$built" arena fib 1 101 0
    measure one.plain_made "$work/plain.built" 1 1
    measure plain_made "$work/plain.built" 1 101
done
for name in fib.0 plain recorded; do
    expect "$name" 'value 28657$'
done
expect cancels 'value 32$'

# The line of a measure: its name, the name of what is taken off, and its words.
line() {
    echo "$3	$(spent "$1" "$2") $(printed "$1" tasks) $(printed "$1" steps)" |
        awk -F'\t' '{ split($2, n, " "); printf "%s\t%d\t%d\t%.0f\t%.0f\n", $1, n[2], n[3], n[2] * 1e9 / n[1], n[1] / n[3] }'
}

printf 'what\ttasks\tsteps\ttasks a second\tnanoseconds a step\n'
line fib.0 none.0 'fib, alone'
line fib.64 none.64 'fib, beside 64 rows'
line fib.4000 none.4000 'fib, beside 4000 rows'
line plain none.plain 'fib, plain Rust'
line recorded none.recorded 'fib, recorded'
line cancels none.cancels 'cancels of 16 groups'
printf 'microseconds to make an arena\t%s\n' "$(($(spent made one.made) / 100000))"
printf 'microseconds to make the plain one\t%s\n' "$(($(spent plain_made one.plain_made) / 100000))"
