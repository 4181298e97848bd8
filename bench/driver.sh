#!/usr/bin/env bash
# Counts the instructions that the units of a job take, one after another on one rank and one thread, as `unit_driver` runs
# them, with valgrind, which counts whatever else the machine does. For jobs over nearly full trees: the units and the
# instructions of a unit, the driver's part included; then the functions that weren't inlined.
# usage: bench/driver.sh [POOL]. POOL is a program that does jobs of all commands on its standard input, with the argument
# `run`: its instructions, without those of a job without commands, are told by the same number of units.
# docs/BENCHMARKS.md says what is measured.
set -eu
LC_ALL=C
export LC_ALL
top=$(cd -- "$(dirname -- "${BASH_SOURCE[0]}")/.." && pwd)
pool=${1:-}
driver=$top/crates/unit_driver/out/unit_driver

fail() { printf 'bench: %s\n' "$*" >&2; exit 1; }

command -v valgrind >/dev/null || fail "there is no valgrind in PATH, which counts instructions"
[ -z "$pool" ] || [ -x "$pool" ] || fail "$pool is no program"
[ -x "$driver" ] || (cd "$top/crates/unit_driver" && rt run >/dev/null) || fail "the driver could not be built"

room=$(mktemp -d)
trap 'rm -rf "$room"' EXIT
. "$top/bench/jobs.sh"

# The instructions of one run of the pool on a job, its start and its end included.
count() {
    valgrind --tool=callgrind --callgrind-out-file=/dev/null "$pool" run <"$1" 2>&1 >/dev/null |
        sed -n 's/.*Collected : //p'
}

# The instructions of a function with all that it calls, its own, and its calls, each with its name: in callgrind's file a
# name stands beside its number once, and later the number alone.
functions() {
    awk '
        function name(text) {
            if (match(text, /^\([0-9]+\) /)) names[substr(text, 1, RLENGTH - 1)] = substr(text, RLENGTH + 1)
            match(text, /^\([0-9]+\)/)
            return names[substr(text, 1, RLENGTH)]
        }
        /^fn=/ { here = name(substr($0, 4)) }
        /^cfn=/ { there = name(substr($0, 5)) }
        /^calls=/ { split(substr($0, 7), words, " "); calls[there] += words[1]; cost = 1; next }
        /^[-+*0-9]/ { if (cost) { if (there != here) all[there] += $2 } else own[here] += $2; cost = 0 }
        END { for (key in calls) printf "%d %d %d %s\n", all[key], own[key], calls[key], key }' "$1"
}

# The instructions with all that it calls of the function that runs all units.
whole() { awk '/Driver::run_job$/ { printf "%d", $1 }' "$1"; }

ratio() { awk -v a="$1" -v b="$2" 'BEGIN { printf "%.1f", a / b }'; }

printf 'job 1 depth 2\n' >"$room/empty"
echo '| job | units | instructions a unit | the pool, a unit |'
echo '|---|---|---|---|'
for depth in 12 14; do
    full_trees $depth >"$room/job"
    valgrind -q --tool=callgrind --callgrind-out-file="$room/calls" "$driver" <"$room/job" >"$room/text" || fail "the run failed"
    units=$(sed -n 's/^tasks //p' "$room/text")
    functions "$room/calls" >"$room/functions.$depth"
    run=$(whole "$room/functions.$depth")
    theirs=''
    [ -z "$pool" ] || theirs=$(ratio $(($(count "$room/job") - $(count "$room/empty"))) "$units")
    printf '| nearly full trees at depth %d | %d | %s | %s |\n' $depth "$units" "$(ratio "$run" "$units")" "$theirs"
    [ $depth != 12 ] || units_at_12=$units
done

echo
echo '| function at depth 12 | calls | instructions a call | of its own | of its own, by unit |'
echo '|---|---|---|---|---|'
grep -E 'unit_driver::driver|unit_driver::table|haar_|std_alloc|rattle_' "$room/functions.12" | sort -k 1 -n -r |
    awk -v units="$units_at_12" '
    NR <= 24 { calls = $3; all = $1; own = $2; $1 = $2 = $3 = ""; sub(/^ +/, "")
        printf "| `%s` | %d | %.1f | %.1f | %.1f |\n", $0, calls, all / calls, own / calls, own / units }'
