#!/bin/sh
# Runs `arena-script` on each stored run of this folder, and compares what it prints, what it says on
# standard error, and its status. A run is a folder: `args` has one word a line. `make build` builds the
# program if a source is newer than it. The last line says how many runs there are.
set -eu
cd "$(dirname "$0")/../.."
program=$PWD/crates/script_program/out/script_program
if [ ! -x "$program" ] || [ -n "$(find crates/*/src -newer "$program")" ]; then
    make -s build
fi
work=$(mktemp -d)
trap 'rm -rf "$work"' EXIT
passed=0
failed=0
for run in checks/stored_runs/*/; do
    status=0
    # Its words have no spaces. A run that is not over after a minute has status 124.
    timeout 60 "$program" $(cat "$run/args") < "$run/stdin" > "$work/stdout" 2> "$work/stderr" || status=$?
    echo "$status" > "$work/status"
    same=yes
    for part in stdout stderr status; do
        diff -u "$run/$part" "$work/$part" || same=no
    done
    if [ "$same" = yes ]; then
        passed=$((passed + 1))
    else
        echo "$run differs"
        failed=$((failed + 1))
    fi
done
echo "$((passed + failed)) stored runs: $failed with other lines or another status"
[ "$failed" -eq 0 ] && [ "$passed" -ge 11 ]
