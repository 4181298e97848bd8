#!/usr/bin/env bash
# Measures the program `world` beside bench/plain.rs: wall time and peak memory of each job, the least of several runs.
# usage: bench/run.sh [RUNS [SERIAL]], 9 runs of each if left out. SERIAL is a plain program that does jobs of all
# commands, given on its standard input, with the word `run`; with it, jobs of nearly full trees are measured beside it.
# docs/BENCHMARKS.md says what is measured.
set -eu
LC_ALL=C
export LC_ALL
top=$(cd -- "$(dirname -- "${BASH_SOURCE[0]}")/.." && pwd)
runs=${1:-9}
serial=${2:-}
world=$top/crates/world/out/world
stopwatch=/usr/bin/time

fail() { printf 'bench: %s\n' "$*" >&2; exit 1; }

[[ $runs =~ ^[1-9][0-9]?$ ]] || fail "the number of runs is 1 to 99"
command -v rustc >/dev/null || fail "there is no rustc in PATH, which builds bench/plain.rs"
[ -z "$serial" ] || [ -x "$serial" ] || fail "$serial is no program"
[ -x "$stopwatch" ] || fail "there is no $stopwatch, which measures memory (package time)"

room=$(mktemp -d)
trap 'rm -rf "$room"' EXIT
plain=$room/plain

printf 'job 1 depth 0\n' | "$top/world" run || fail "the program could not be built"
rustc -O --edition 2024 -o "$plain" "$top/bench/plain.rs"

. "$top/bench/jobs.sh"
make_jobs

# The wall time of one run of a program with its words on a job, in microseconds.
micros() {
    local job=$1 from to
    shift
    from=$EPOCHREALTIME
    "$@" <"$job" >/dev/null || true
    to=$EPOCHREALTIME
    echo $((${to/./} - ${from/./}))
}

# The most memory that one run had, in KB.
peak() {
    local job=$1
    shift
    "$stopwatch" -q -f '%M' -o "$room/peak" "$@" <"$job" >/dev/null || true
    cat "$room/peak"
}

least() { sort -n "$1" | head -n 1; }

# Whether both write the same bytes and end with the same status.
compare() {
    local yardstick=$1 word=$2 name=$3 ours=0 theirs=0
    "$world" "$word" <"$room/$name" >"$room/ours" || ours=$?
    "$yardstick" run <"$room/$name" >"$room/theirs" || theirs=$?
    [ "$ours" = "$theirs" ] || fail "$name: status $ours, and of the plain program $theirs"
    cmp -s "$room/ours" "$room/theirs" || fail "$name: the two programs write different bytes"
}

# One row: the job, the output in `ours`, and times and memory of the programs `first` and `second`, whose runs take turns.
row() {
    local name=$1 job=$room/$1 i
    : >"$room/first-time"; : >"$room/second-time"; : >"$room/first-peak"; : >"$room/second-peak"
    for ((i = 0; i < runs; i++)); do
        micros "$job" "${first[@]}" >>"$room/first-time"
        micros "$job" "${second[@]}" >>"$room/second-time"
        peak "$job" "${first[@]}" >>"$room/first-peak"
        peak "$job" "${second[@]}" >>"$room/second-peak"
    done
    awk -v name="$name" -v bytes="$(wc -c <"$room/ours")" \
        -v a="$(least "$room/first-time")" -v b="$(least "$room/second-time")" \
        -v c="$(least "$room/first-peak")" -v d="$(least "$room/second-peak")" \
        'BEGIN { printf "| %s | %d | %.4f | %.4f | %.2f | %d | %d | %.2f |\n", name, bytes, a / 1e6, b / 1e6, a / b, c, d, c / d }'
}

# A job beside a yardstick.
measure() {
    local yardstick=$1 word=$2 name=$3
    compare "$yardstick" "$word" "$name"
    first=("$world" "$word")
    second=("$yardstick" run)
    row "$name"
}

# A job with receipts beside the same without them. The text is the same but for the lines of receipts.
measure_receipts() {
    local name=$1
    first=("$world" serial --ranks 16 --map level --receipts)
    second=("$world" serial)
    "${first[@]}" <"$room/$name" >"$room/ours" || fail "$name: status $? with receipts"
    "${second[@]}" <"$room/$name" >"$room/theirs" || fail "$name: status $? without receipts"
    grep -q '^end messages ' "$room/ours" || fail "$name: there are no receipts"
    grep -v -e '^fence ' -e '^end ' "$room/ours" | cmp -s - "$room/theirs" || fail "$name: the two texts differ"
    row "$name"
}

heads() {
    echo "| job | bytes written | $1, s | $2, s | ratio | $1, KB | $2, KB | ratio |"
    echo '|---|---|---|---|---|---|---|---|'
}

printf 'least of %s runs, %s processors, %s, %s\n\n' "$runs" "$(nproc)" "$(rt version)" "$(rustc --version)"
heads world plain
for name in "${plain_jobs[@]}"; do measure "$plain" run "$name"; done
echo
heads 'with receipts' 'without'
for name in "${receipt_jobs[@]}"; do measure_receipts "$name"; done
[ -n "$serial" ] || exit 0
echo
heads world serial
for name in "${serial_jobs[@]}"; do measure "$serial" serial "$name"; done
