#!/usr/bin/env bash
# Counts the instructions of the calls of the tree application that `haar_tests` makes, with valgrind, which counts whatever
# else the machine does: for each function that wasn't inlined its calls, the instructions of a call with all that it calls,
# and those of its own.
# usage: bench/steps.sh. docs/BENCHMARKS.md says what is measured.
set -eu
LC_ALL=C
export LC_ALL
top=$(cd -- "$(dirname -- "${BASH_SOURCE[0]}")/.." && pwd)
tests=$top/crates/haar_tests/out/haar_tests_tests

fail() { printf 'bench: %s\n' "$*" >&2; exit 1; }

command -v valgrind >/dev/null || fail "there is no valgrind in PATH, which counts instructions"
[ -x "$tests" ] || (cd "$top/crates/haar_tests" && rt test >/dev/null) || fail "the tests could not be built"

room=$(mktemp -d)
trap 'rm -rf "$room"' EXIT
valgrind -q --tool=callgrind --callgrind-out-file="$room/calls" "$tests" tests::units_make_the_serial_text >/dev/null ||
    fail "the test failed"

# In callgrind's file a name stands beside its number once, and later the number alone.
echo '| function | calls | instructions a call | of its own |'
echo '|---|---|---|---|'
awk '
    function name(text, parts) {
        if (match(text, /^\([0-9]+\) /)) names[substr(text, 1, RLENGTH - 1)] = substr(text, RLENGTH + 1)
        match(text, /^\([0-9]+\)/)
        return names[substr(text, 1, RLENGTH)]
    }
    /^fn=/ { here = name(substr($0, 4)) }
    /^cfn=/ { there = name(substr($0, 5)) }
    /^calls=/ { split(substr($0, 7), words, " "); calls[there] += words[1]; cost = 1; next }
    /^[-+*0-9]/ { if (cost) all[there] += $2; else own[here] += $2; cost = 0 }
    END {
        for (key in calls) if (key ~ /HaarApp|haar_steps|haar_visits|^rattle_alloc$/)
            printf "| `%s` | %d | %.1f | %.1f |\n", key, calls[key], all[key] / calls[key], own[key] / calls[key]
    }' "$room/calls" | sort -t '|' -k 3 -n -r
