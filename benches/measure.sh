# What the scripts of the folders here share: `. ../measure.sh` in the folder of one. `built` is the program that they
# measure: the one that BENCHMARKS names, or else that of crates/benchmarks, which `rt run` proves and builds first.
# `measure` keeps the nanoseconds of runs in files of the folder `work`, which goes at the end. TIMES says how often
# each run is made, if a script's own number is not wanted.
built="${BENCHMARKS:-../../crates/benchmarks/out/benchmarks}"
if [ -z "${BENCHMARKS:-}" ]; then
    (cd ../../crates/benchmarks && rt run < stdin > /dev/null 2>&1)
fi
work=$(mktemp -d)
trap 'rm -rf "$work"' EXIT

# Runs a command, and adds its nanoseconds to a file of that name; what it printed stays in another. They are those of the
# processor, which depend less on what else the machine does, or of the clock, if the script says clock=clock.
measure() {
    name="$1"
    shift
    ../timed.py "${clock:-processor}" "$work/$name" "$@" > "$work/$name.printed"
}

# The nanoseconds of the fastest run of that name.
fastest() {
    sort -n "$work/$1" | head -n 1
}

# The same without what the fastest run of another name took.
spent() {
    echo $(($(fastest "$1") - $(fastest "$2")))
}

# A number that the last run of a name printed before a word.
printed() {
    sed -n "s/.* \([0-9]*\) $2.*/\1/p" "$work/$1.printed"
}

# Ends the script unless the last run of a name printed a line with that.
expect() {
    grep -q "$2" "$work/$1.printed" || { cat "$work/$1.printed" >&2; exit 1; }
}

# The numbers from 1, as many as a run is to be made.
repeats() {
    seq "${TIMES:-$1}"
}
