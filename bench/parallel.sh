#!/usr/bin/env bash
# Measures `world run` on ranks and workers beside a plain program of the same shape: medians of wall times, memory, and
# instructions a task.
# usage: bench/parallel.sh POOL [RUNS]. POOL is a program that does a job on its standard input with the word `run`, by
# tasks on HAAR_RANKS ranks with HAAR_WORKERS workers each, without proofs; it runs 9 times in turn with ours if left out.
# docs/BENCHMARKS.md says what is measured.
set -eu
LC_ALL=C
export LC_ALL
top=$(cd -- "$(dirname -- "${BASH_SOURCE[0]}")/.." && pwd)
pool=${1:-}
runs=${2:-9}
world=${WORLD:-$top/crates/world/out/world}
stopwatch=/usr/bin/time

fail() { printf 'bench: %s\n' "$*" >&2; exit 1; }

[ -n "$pool" ] && [ -x "$pool" ] || fail "usage: bench/parallel.sh POOL [RUNS], and POOL is a program"
[[ $runs =~ ^[1-9][0-9]?$ ]] || fail "the number of runs is 1 to 99"
[ -x "$stopwatch" ] || fail "there is no $stopwatch, which measures memory (package time)"

room=$(mktemp -d)
trap 'rm -rf "$room"' EXIT

[ -n "${WORLD:-}" ] || printf 'job 1 depth 0\n' | "$top/world" run || fail "the program could not be built"

. "$top/bench/jobs.sh"
for depth in 12 14 16; do full_trees $depth >"$room/$depth"; done

# Sets `ours` and `theirs`: the two programs on so many ranks and workers.
on() {
    ours=("$world" run --ranks "$1" --workers "$2")
    theirs=(env "HAAR_RANKS=$1" "HAAR_WORKERS=$2" "$pool" run)
}

# The wall time of one run on a job, in microseconds.
micros() {
    local job=$1 from to
    shift
    from=$EPOCHREALTIME
    "$@" <"$job" >/dev/null || true
    to=$EPOCHREALTIME
    echo $((${to/./} - ${from/./}))
}

# The most memory that one run had, in KB.
peak() {
    local job=$1
    shift
    "$stopwatch" -q -f '%M' -o "$room/peak" "$@" <"$job" >/dev/null || true
    cat "$room/peak"
}

# The instructions of one run, its start and its end included.
count() {
    local job=$1
    shift
    valgrind --trace-children=yes --tool=callgrind --callgrind-out-file=/dev/null "$@" <"$job" 2>&1 >/dev/null | sed -n 's/.*Collected : //p'
}

median() { sort -n "$1" | awk '{ a[NR] = $1 } END { print a[int((NR + 1) / 2)] }'; }

# How many tasks a job comes to on one rank.
tasks() { "$world" serial --receipts <"$1" | sed -n 's/^end messages .* tasks //p'; }

# Whether each writes what `serial` does.
compare() {
    "$world" serial <"$room/$1" >"$room/text"
    "${ours[@]}" <"$room/$1" | cmp -s - "$room/text" || fail "depth $1: ${ours[*]} writes another text"
    "${theirs[@]}" <"$room/$1" | cmp -s - "$room/text" || fail "depth $1: the plain program writes another text"
}

# One table_line: the two programs in turn. `first` has our time on one rank without workers at this depth.
table_line() {
    local depth=$1 ranks=$2 workers=$3 i
    on "$ranks" "$workers"
    compare "$depth"
    : >"$room/ours"; : >"$room/theirs"
    for ((i = 0; i < runs; i++)); do
        micros "$room/$depth" "${ours[@]}" >>"$room/ours"
        micros "$room/$depth" "${theirs[@]}" >>"$room/theirs"
    done
    [ "$ranks,$workers" != 1,0 ] || first=$(median "$room/ours")
    awk -v depth="$depth" -v ranks="$ranks" -v workers="$workers" -v a="$(median "$room/ours")" \
        -v b="$(median "$room/theirs")" -v first="$first" -v tasks="$(tasks "$room/$depth")" \
        'BEGIN { printf "| %d | %d | %d | %.1f | %.1f | %.2f | %.0f | %.2f |\n", depth, ranks, workers, a / 1e3, b / 1e3, a / b, a * 1e3 / tasks, first / a }'
}

printf 'medians of %s runs, %s processors, load %s, %s\n\n' "$runs" "$(nproc)" "$(cut -d' ' -f1-3 /proc/loadavg)" "$(rt version)"
echo '| depth | ranks | workers | world, ms | pool, ms | ratio | world, ns a task | own speed-up |'
echo '|---|---|---|---|---|---|---|---|'
for depth in 12 14; do
    for size in '1 0' '4 0' '2 2' '1 4'; do table_line $depth $size; done
done
table_line 16 1 0
echo
echo '| depth | ranks | workers | world, KB | pool, KB |'
echo '|---|---|---|---|---|'
for size in '1 0' '4 0'; do
    on $size
    printf '| 16 | %s | %s | %s | %s |\n' $size "$(peak "$room/16" "${ours[@]}")" "$(peak "$room/16" "${theirs[@]}")"
done
command -v valgrind >/dev/null || fail "there is no valgrind in PATH, which counts instructions"
echo
echo '| depth | tasks | world, instructions a task | pool, instructions a task |'
echo '|---|---|---|---|'
on 1 0
for depth in 12 14; do
    number=$(tasks "$room/$depth")
    printf '| %s | %s | %s | %s |\n' $depth "$number" $(($(count "$room/$depth" "${ours[@]}") / number)) \
        $(($(count "$room/$depth" "${theirs[@]}") / number))
done
