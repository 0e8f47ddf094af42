#!/bin/sh
# Runs each script of examples/ with the word that its folder is named for, and compares what the program
# prints with the file beside the script. The program is built once, by `rt try`, which proves nothing.
# The expected lines were worked out from the rules, and were not taken from a run.
set -eu
cd "$(dirname "$0")/../../examples"
work=$(mktemp -d)
trap 'rm -rf "$work"' EXIT
mkdir "$work/cases"
count=0
for script in */*.jsonl; do
    word=${script%%/*}
    case="$work/cases/$word-$(basename "$script" .jsonl)"
    cp "$script" "$case"
    cp "${script%.jsonl}.out" "$case.stdout"
    echo "$word" > "$case.args"
    count=$((count + 1))
done
cd ../crates/script_program
rt try --cases "$work/cases" > "$work/printed" 2> "$work/said" || { cat "$work/said" "$work/printed"; exit 1; }
[ "$(grep -c 'output=expected' "$work/said")" -eq "$count" ] || { cat "$work/said"; exit 1; }
echo "$count examples print what is expected"
