# Makes the jobs that are measured. Read by the scripts beside it, not run. The first functions write a job to standard
# output, and `make_jobs` makes a file of each in the folder `$room`.

# A text of so many bytes: it begins as given, goes on with this unit over and over, and ends with a line feed.
fill() {
    local text=$1 unit=$2 size=$3
    printf '%s' "$text"
    yes "$unit" | tr -d '\n' | head -c $((size - ${#text} - 1)) || true
    printf '\n'
}

# A job of a depth with a command so many times, and another behind it so many times.
job() {
    local depth=$1 first=$2 first_times=$3 second=$4 second_times=$5 i
    printf 'job 1 depth %s\n' "$depth"
    for ((i = 0; i < first_times; i++)); do printf '%s\n' "$first"; done
    for ((i = 0; i < second_times; i++)); do printf '%s\n' "$second"; done
}

# The job of 1 MiB with as many commands as a job may have, each line filled up with blanks, and a comment for the rest.
longest_job() {
    local i line
    printf 'job 1 depth 0\n'
    for ((i = 1; i <= 512; i++)); do
        line='project f const 1 level 0 tol 0'
        [ $((i % 32)) != 0 ] || line=fence
        printf '%-2046s\n' "$line"
    done
    fill '#' 'x' 498
}

# A job over nearly full trees, whose text is two inner products.
full_trees() {
    local depth=$1 cells=$((1 << $1))
    cat <<JOB
job 1 depth $depth
project f hash 7 1000 level 4 tol 0
project g ramp 7 1 level 2 tol 0
project h box $((7 * cells / 4096)) $cells 7 level 6 tol 0
fence
compress f
compress g
compress h
add p = 2 f + -1 g
inner f g
inner p h
fence
reconstruct p
reconstruct h
mul q = p * h
fence
JOB
}

# A job that makes full trees of a function, so many, and coarsens each so often, with a fence after each time; and then
# counts the keys.
coarsened_trees() {
    local depth=$1 function=$2 times=$3 coarsens=$4 i j
    printf 'job 1 depth %s\n' "$depth"
    for ((i = 0; i < times; i++)); do
        printf 'project f %s level %s tol 0\n' "$function" "$depth"
        for ((j = 0; j < coarsens; j++)); do printf 'coarsen f\nfence\n'; done
    done
    printf 'size f\n'
}

# The jobs that are measured beside bench/plain.rs, with receipts beside the same without, and beside a program that does
# all commands.
plain_jobs=('full tree, 31 prints' 'full tree, 1 print' '31 full trees, no print' 'small tree at depth 16'
    'comment of 1 MiB' '512 commands, 1 MiB' 'one-letter words, 1 MiB' 'one byte too long')
receipt_jobs=('31 full trees, no print' 'nearly full trees at depth 16' 'full trees coarsened to the root'
    'a full tree coarsened, all keys stay')
serial_jobs=('nearly full trees at depth 12' 'nearly full trees at depth 14' 'nearly full trees at depth 16'
    'full trees coarsened to the root' 'a full tree coarsened, all keys stay')

make_jobs() {
    local full='project f ramp 0 1 level 16 tol 0'
    local header=$'job 1 depth 0\n'
    job 16 "$full" 1 'print f' 31 >"$room/full tree, 31 prints"
    job 16 "$full" 1 'print f' 1 >"$room/full tree, 1 print"
    job 16 "$full" 31 '' 0 >"$room/31 full trees, no print"
    job 16 'project f ramp 0 1 level 0 tol 8192' 1 'print f' 1 >"$room/small tree at depth 16"
    fill "$header#" 'x' 1048576 >"$room/comment of 1 MiB"
    fill "$header" 'a ' 1048576 >"$room/one-letter words, 1 MiB"
    longest_job >"$room/512 commands, 1 MiB"
    fill "$header#" 'x' 1048577 >"$room/one byte too long"
    local depth
    for depth in 12 14 16; do full_trees $depth >"$room/nearly full trees at depth $depth"; done
    coarsened_trees 16 'const 5' 16 1 >"$room/full trees coarsened to the root"
    coarsened_trees 16 'ramp 0 1' 1 24 >"$room/a full tree coarsened, all keys stay"
}

# The jobs that are run in parallel over and over, or while calls are refused: the first command of two that overflows, both
# forms of a tree, and three functions with their products.
parallel_jobs=(overflow forms product)

make_parallel_jobs() {
    cat >"$room/overflow" <<'JOB'
job 1 depth 0
project f const 16777216 level 0 tol 0
print f
compress f
add h = 2 f + 0 f
add k = 3 f + 0 f
print h
JOB
    cat >"$room/forms" <<'JOB'
job 1 depth 2
project f ramp 0 1 level 0 tol 0
compress f
inner f f
fence
print f
JOB
    cat >"$room/product" <<'JOB'
job 1 depth 12
project f ramp 0 1 level 0 tol 0
project g const 2 level 3 tol 0
project h step 1024 5 9 level 0 tol 0
compress f
compress g
compress h
add p = 3 f + 1 h
inner f g
inner p g
reconstruct p
reconstruct h
mul q = p * h
fence
compress q
inner q g
print g
JOB
}
