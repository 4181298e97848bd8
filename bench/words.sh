#!/usr/bin/env bash
# Counts the instructions of the calls of lanes that `words_bench` makes without traces, each in a function that isn't
# inlined, with valgrind, which counts whatever else the machine does: for each its calls, and the instructions of a call, with
# that to the function and the return. Then, from the program itself, the functions that it calls, on a path without a trace
# or with one: one that moves many bytes would be `memcpy` or `memmove`.
# Then the instructions of a message from sending to handling, where the calls are inlined, as the difference of two runs.
# After that it times so many messages to each of four ranks: they are sent, or sent and taken on one thread or on four. The
# least of all runs counts. Four threads need four processors that do nothing else.
# usage: bench/words.sh [MESSAGES [RUNS]], 1000000 and 9 if left out. docs/BENCHMARKS.md says what is measured.
set -eu
LC_ALL=C
export LC_ALL
top=$(cd -- "$(dirname -- "${BASH_SOURCE[0]}")/.." && pwd)
messages=${1:-1000000}
runs=${2:-9}
program=$top/crates/words_bench/out/words_bench

fail() { printf 'bench: %s\n' "$*" >&2; exit 1; }

command -v valgrind >/dev/null || fail "there is no valgrind in PATH, which counts instructions"
command -v objdump >/dev/null || fail "there is no objdump in PATH, which tells what a function calls"
[ -x "$program" ] || (cd "$top/crates/words_bench" && rt run >/dev/null) || fail "the program could not be built"

room=$(mktemp -d)
trap 'rm -rf "$room"' EXIT
valgrind -q --tool=callgrind --callgrind-out-file="$room/calls" "$program" 2 0 >/dev/null || fail "the run failed"

# What each function calls, with a line for each pair.
objdump -d --no-show-raw-insn "$program" | awk '
    /^[0-9a-f]+ </ { here = $0; sub(/^[0-9a-f]+ </, "", here); sub(/>:$/, "", here); next }
    here ~ /words_bench::calls::/ && / call / { there = $0; sub(/.* call +[^<]*/, "", there); print here " " there }' |
    sort -u >"$room/called"

# In callgrind's file a name stands beside its number once, and later the number alone.
echo '| call | calls | instructions a call | calls a function |'
echo '|---|---|---|---|'
awk -v pairs="$room/called" '
    function name(text) {
        if (match(text, /^\([0-9]+\) /)) names[substr(text, 1, RLENGTH - 1)] = substr(text, RLENGTH + 1)
        match(text, /^\([0-9]+\)/)
        return names[substr(text, 1, RLENGTH)]
    }
    BEGIN { while ((getline line < pairs) > 0) { split(line, pair, " "); called[pair[1]] = called[pair[1]] " " pair[2] } }
    /^fn=/ { here = name(substr($0, 4)) }
    /^cfn=/ { there = name(substr($0, 5)) }
    /^calls=/ { split(substr($0, 7), words, " "); calls[there] += words[1]; cost = 1; next }
    /^[-+*0-9]/ { if (cost) all[there] += $2; else own[here] += $2; cost = 0 }
    END {
        for (key in calls) if (key ~ /words_bench::calls::/) {
            call = key
            sub(/.*words_bench::calls::/, "", call)
            sub(/::.*/, "", call)
            printf "| `%s` | %d | %.1f | %s |\n", call, calls[key], all[key] / calls[key], key in called ? called[key] : "none"
        }
    }' "$room/calls" | sort

# The instructions of a run with so many messages to each rank on this many threads.
instructions() {
    valgrind -q --tool=callgrind --callgrind-out-file="$room/run" "$program" "$1" "$2" >/dev/null || fail "the run failed"
    awk '/^(totals|summary):/ { print $2; exit }' "$room/run"
}

sent=$(($(instructions 3000 0) - $(instructions 1000 0)))
all=$(($(instructions 3000 1) - $(instructions 1000 1)))
awk -v sent="$sent" -v all="$all" 'BEGIN {
    print "\n| the calls of a message, inlined | instructions |\n|---|---|"
    printf "| `sent`, `pack` | %.1f |\n", sent / 8000
    printf "| `take_in`, `submitted`, `pack`, `handled` | %.1f |\n", (all - sent) / 8000
}'

# The seconds of a run with this many threads.
timed() {
    local begin=$EPOCHREALTIME
    "$program" "$messages" "$1" >/dev/null || fail "the run failed"
    local end=$EPOCHREALTIME
    awk -v a="$begin" -v b="$end" -v threads="$1" 'BEGIN { printf "%d %.6f\n", threads, b - a }'
}

for _ in $(seq "$runs"); do
    for threads in 0 1 4; do timed "$threads"; done
done >"$room/times"

echo
echo '| with 4 times so many messages | messages | ns a message |'
echo '|---|---|---|'
awk -v all="$((4 * messages))" '
    !($1 in least) || $2 < least[$1] { least[$1] = $2 }
    END {
        one = least[1] - least[0]; four = least[4] - least[0]
        printf "| `sent`, `pack`, on one thread | %d | %.1f |\n", all, least[0] / all * 1e9
        printf "| `take_in`, `submitted`, `pack`, `handled`, on one thread | %d | %.1f |\n", all, one / all * 1e9
        printf "| the same on four threads | %d | %.1f |\n", all, four / all * 1e9
        printf "\nfour threads did %.2f times the calls of one in the same time\n", one / four
    }' "$room/times"
