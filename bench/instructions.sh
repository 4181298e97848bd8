#!/usr/bin/env bash
# Counts the instructions of the program `world`, which don't depend on what else the machine does: of `serial` with
# receipts beside the same without, and of each job of bench/run.sh beside bench/plain.rs.
# usage: bench/instructions.sh [SERIAL]. SERIAL is a program as in bench/run.sh, which then gets a table, too.
# docs/BENCHMARKS.md says what is counted.
set -eu
LC_ALL=C
export LC_ALL
top=$(cd -- "$(dirname -- "${BASH_SOURCE[0]}")/.." && pwd)
serial=${1:-}
world=$top/crates/world/out/world

fail() { printf 'bench: %s\n' "$*" >&2; exit 1; }

command -v valgrind >/dev/null || fail "there is no valgrind in PATH, which counts instructions"
command -v rustc >/dev/null || fail "there is no rustc in PATH, which builds bench/plain.rs"
[ -z "$serial" ] || [ -x "$serial" ] || fail "$serial is no program"

room=$(mktemp -d)
trap 'rm -rf "$room"' EXIT
plain=$room/plain

printf 'job 1 depth 0\n' | "$top/world" run || fail "the program could not be built"
rustc -O --edition 2024 -o "$plain" "$top/bench/plain.rs"

. "$top/bench/jobs.sh"
make_jobs

# The instructions of one run of a program with its words on a job, its start and its end included.
count() {
    local job=$1
    shift
    valgrind --tool=callgrind --callgrind-out-file=/dev/null "$@" <"$job" 2>&1 >/dev/null | sed -n 's/.*Collected : //p'
}

ratio() { awk -v a="$1" -v b="$2" 'BEGIN { printf "%.2f", a / b }'; }

# A job beside a yardstick.
beside() {
    local yardstick=$1 word=$2 name=$3 ours theirs
    ours=$(count "$room/$name" "$world" "$word")
    theirs=$(count "$room/$name" "$yardstick" run)
    printf '| %s | %d | %d | %s |\n' "$name" "$ours" "$theirs" "$(ratio "$ours" "$theirs")"
}

# A job with receipts, on one rank and on sixteen, beside the same without them.
receipts() {
    local name=$1 without one sixteen
    without=$(count "$room/$name" "$world" serial)
    one=$(count "$room/$name" "$world" serial --receipts)
    sixteen=$(count "$room/$name" "$world" serial --ranks 16 --map level --receipts)
    printf '| %s | %d | %d | %d | %s |\n' "$name" "$without" "$one" "$sixteen" \
        "$(ratio $((one > sixteen ? one : sixteen)) "$without")"
}

heads() {
    printf '| job | %s | %s | ratio |\n' "$1" "$2"
    echo '|---|---|---|---|'
}

printf '%s, %s, %s\n\n' "$(rt version)" "$(rustc --version)" "$(valgrind --version)"
heads world plain
for name in "${plain_jobs[@]}"; do beside "$plain" run "$name"; done
echo
echo '| job | `serial` | with `--receipts` | with `--ranks 16 --map level --receipts` | largest ratio |'
echo '|---|---|---|---|---|'
for name in "${receipt_jobs[@]}"; do receipts "$name"; done
[ -n "$serial" ] || exit 0
echo
heads world serial
for name in "${serial_jobs[@]}"; do beside "$serial" serial "$name"; done
