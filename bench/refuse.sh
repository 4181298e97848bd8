#!/usr/bin/env bash
# Runs jobs in parallel while starts of threads, or requests for memory, are refused, and compares each text and status
# with those of `world serial`. Where memory is refused, status 4 with nothing written is right too. It stops at the first
# run that ends in another way, or doesn't end, and prints how it was run.
# usage: bench/refuse.sh [FINENESS]. The calls refused lie closer together with a greater one; 8 if left out. Of the small
# jobs each request for memory is refused. WORLD may name another program in its place.
# The program is linked dynamically, and its threads and memory come from the C library (pthread_create, malloc, realloc):
# so bench/refuse.c, built by gcc and loaded before that library, takes each of these calls. It doesn't take the memory
# that the C library gets from the system itself, as for the stacks of threads.
set -eu
LC_ALL=C
export LC_ALL
top=$(cd -- "$(dirname -- "${BASH_SOURCE[0]}")/.." && pwd)
fineness=${1:-8}
world=${WORLD:-$top/crates/world/out/world}
most_seconds=60
most_calls=100000000
out_of_memory=4

fail() { printf 'refuse: %s\n' "$*" >&2; exit 1; }

[[ $fineness =~ ^[1-9][0-9]{0,3}$ ]] || fail "the fineness is 1 to 9999"
command -v gcc >/dev/null || fail "there is no gcc in PATH, which builds bench/refuse.c"

room=$(mktemp -d)
trap 'rm -rf "$room"' EXIT

[ -n "${WORLD:-}" ] || printf 'job 1 depth 0\n' | "$top/world" run || fail "the program could not be built"

gcc -std=c11 -O2 -Wall -Wextra -fno-builtin -fPIC -shared -o "$room/refuse.so" "$top/bench/refuse.c"

. "$top/bench/jobs.sh"
make_parallel_jobs

# One run of a job on ranks and workers, where calls of a kind are refused: the first of them, and after it each so many-th.
# Sets `status`, `how` and, if a call was refused, makes the file `mark`.
run_refused() {
    local name=$1 kind=$2 first=$3 step=$4 ranks=$5 workers=$6
    how="$name: REFUSE=$kind REFUSE_FROM=$first REFUSE_STEP=$step world run --ranks $ranks --workers $workers"
    status=0
    rm -f "$room/mark"
    timeout -k 1 "$most_seconds" env "LD_PRELOAD=$room/refuse.so" "REFUSE=$kind" "REFUSE_FROM=$first" \
        "REFUSE_STEP=$step" "REFUSE_MARK=$room/mark" "$world" run --ranks "$ranks" --workers "$workers" \
        <"$room/$name" >"$room/text" 2>"$room/errors" || status=$?
    [ "$status" != 124 ] && [ "$status" != 137 ] || fail "no end within $most_seconds s: $how"
    [ ! -s "$room/errors" ] || fail "a text of errors: $how"
}

# Whether the last run ended as the serial one.
is_serial() { [ "$status" = "$expected" ] && cmp -s "$room/text" "$room/$name.text"; }

# Refuses starts of threads, from each call on to the last one that there is.
refuse_threads() {
    local ranks=$1 workers=$2 first step starts=$(($1 * ($2 + 1) - 1))
    for ((first = 1; first <= starts; first += first / fineness + 1)); do
        for step in 0 1 "$first"; do
            run_refused "$name" threads "$first" "$step" "$ranks" "$workers"
            is_serial || fail "status $status or text: $how"
            [ -e "$room/mark" ] || fail "nothing was refused: $how"
            thread_runs=$((thread_runs + 1))
        done
    done
    run_refused "$name" threads $((starts + 1)) 1 "$ranks" "$workers"
    is_serial || fail "status $status or text: $how"
    [ ! -e "$room/mark" ] || fail "more threads than hands: $how"
}

# Refuses requests for memory, until no run has so many of them: of a small job each, and of a large one some.
refuse_memory() {
    local ranks=$1 workers=$2 step=$3 first
    for ((first = 1; first <= most_calls; first += small ? 1 : first / fineness + 1)); do
        run_refused "$name" memory "$first" "$step" "$ranks" "$workers"
        if [ "$status" = "$out_of_memory" ] && [ ! -s "$room/text" ]; then
            [ -e "$room/mark" ] || fail "status 4, and nothing was refused: $how"
            out_runs=$((out_runs + 1))
        elif is_serial; then
            right_runs=$((right_runs + 1))
        else
            fail "status $status or text: $how"
        fi
        [ -e "$room/mark" ] || return 0
    done
    fail "no end of the requests: $how"
}

for name in "${parallel_jobs[@]}"; do
    small=1
    [ "$name" != product ] || small=0
    expected=0
    "$world" serial <"$room/$name" >"$room/$name.text" || expected=$?
    thread_runs=0 right_runs=0 out_runs=0
    for size in '1 4' '2 0' '2 2' '4 1' '16 4'; do refuse_threads ${size% *} ${size#* }; done
    printf '%s: %d runs without some threads, status %d, one text\n' "$name" "$thread_runs" "$expected"
    for size in '1 0' '2 1' '4 2'; do
        for step in 0 1; do refuse_memory ${size% *} ${size#* } "$step"; done
    done
    [ "$out_runs" != 0 ] || fail "$name: no run had too little memory"
    printf '%s: %d runs without some memory: %d with status %d and that text, %d with status %d and nothing\n' \
        "$name" $((right_runs + out_runs)) "$right_runs" "$expected" "$out_runs" "$out_of_memory"
done
