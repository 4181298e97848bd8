#!/usr/bin/env bash
# Runs jobs in parallel over and over, each time with other ranks, workers, owner map and processors, and compares each
# text and status with those of `world serial`. It stops at the first that differs, and prints how it was run.
# usage: bench/stress.sh [RUNS [SEED]], 2,000 runs of each job if left out. WORLD may name another program in its place.
set -eu
LC_ALL=C
export LC_ALL
top=$(cd -- "$(dirname -- "${BASH_SOURCE[0]}")/.." && pwd)
runs=${1:-2000}
seed=${2:-1}
world=${WORLD:-$top/crates/world/out/world}
most_seconds=60

fail() { printf 'stress: %s\n' "$*" >&2; exit 1; }

[[ $runs =~ ^[1-9][0-9]{0,6}$ ]] || fail "the number of runs is 1 to 9999999"
[[ $seed =~ ^[0-9]{1,5}$ ]] || fail "the seed is a number of at most 5 digits"
command -v taskset >/dev/null || fail "there is no taskset in PATH, which chooses processors"

room=$(mktemp -d)
trap 'rm -rf "$room"' EXIT

[ -n "${WORLD:-}" ] || printf 'job 1 depth 0\n' | "$top/world" run || fail "the program could not be built"

. "$top/bench/jobs.sh"
make_parallel_jobs

maps=(block spread level)
processors=$(nproc)
RANDOM=$seed

# Which processors a run may use, in `cpus`: a single one, the first of them, or all.
choose_processors() {
    case $((RANDOM % 3)) in
        0) cpus=$((RANDOM % processors)) ;;
        1) cpus=0-$((RANDOM % processors)) ;;
        *) cpus=0-$((processors - 1)) ;;
    esac
}

# One run of a job, in another way each time.
run_once() {
    local name=$1 status=0
    choose_processors
    words=(run --ranks $((RANDOM % 16 + 1)) --workers $((RANDOM % 5)) --map "${maps[RANDOM % 3]}")
    timeout "$most_seconds" taskset -c "$cpus" "$world" "${words[@]}" <"$room/$name" >"$room/text" || status=$?
    [ "$status" != 124 ] || fail "$name: no end within $most_seconds s: taskset -c $cpus world ${words[*]}"
    [ "$status" = "$expected" ] || fail "$name: status $status: taskset -c $cpus world ${words[*]}"
    cmp -s "$room/text" "$room/$name.text" || fail "$name: another text: taskset -c $cpus world ${words[*]}"
}

for name in "${parallel_jobs[@]}"; do
    expected=0
    "$world" serial <"$room/$name" >"$room/$name.text" || expected=$?
    from=$EPOCHREALTIME
    for ((i = 0; i < runs; i++)); do
        run_once "$name"
    done
    to=$EPOCHREALTIME
    printf '%s: %d runs, status %d, one text, %d ms\n' "$name" "$runs" "$expected" $(((${to/./} - ${from/./}) / 1000))
done
