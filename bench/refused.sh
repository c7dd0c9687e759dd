#!/usr/bin/env bash
# Refuses memory to the built program, one call of the allocator after another, and then input and output. No part of
# the gate.
#
#   bench/refused.sh PROGRAM
#
# The runs are rows of row_runs: the worked task, whose generator is a shell; the grid's task in the three modes that
# dream, whose generator is in the process; and a report that is judged. Of each run every call of malloc, calloc,
# realloc, aligned_alloc and posix_memalign is refused once (refuse.c), until three runs in a row had none left. Then one
# of these holds, else it is printed: status 9, first whole lines of the plain output and `fault memory`; status 9 and no
# output; the plain output with its status.
# Then standard output takes n bytes, for each n below the report's length, or none: a full device, a closed pipe; a
# report is a folder; a program is none. No run may leave a process behind.
# The last line is 'N wrong'.
set -euo pipefail
export LC_ALL=C

[[ $# -eq 1 && -x $1 ]] || { sed -n '2,17s/^# \?//p' "$0"; exit 2; }
program=$(realpath "$1")
root=$(cd "$(dirname "$0")/.." && pwd)
work=$(mktemp -d)
trap 'rm -rf "$work"' EXIT
wrong=0

complain() { wrong=$((wrong + 1)); echo "  wrong: $*"; }

# Writes the files of a row of the subject $2, by its name, into the folder $1.
write_row() {
    mkdir "$work/$1"
    python3 - "$root/bench" "$work/$1" "$2" "$3" <<'PY'
import os, sys
sys.path.insert(0, sys.argv[1])
sys.dont_write_bytecode = True
import rows
subject = rows.read(os.path.join(rows.ROWS, 'data', sys.argv[3]))
row = next(row for row in rows.rows_in(subject) if row.name == sys.argv[4])
for path in row.files:
    with open(os.path.join(sys.argv[2], path), 'w', encoding='utf-8') as file:
        file.write(row.text(path))
PY
}

# Runs the command behind $2 in the folder $1 with the output in the file $2. Sets status. No process may be left.
run() {
    local folder=$1 output=$2
    shift 2
    (cd "$folder" && exec setsid timeout --foreground 60 "$@" > "$output" 2> "$work/errors") &
    await $!
}

# Waits for the session $1.
await() {
    local session=$1
    status=0
    wait "$session" || status=$?
    if pgrep -s "$session" > "$work/left"; then complain "status $status, processes left: $(tr '\n' ' ' < "$work/left")"; fi
}

# Whether the text $1 is $2's first whole lines and then `fault memory`.
is_front_with_fault() {
    [[ $(tail -n 1 "$1") = 'fault memory' ]] || return 1
    head -n -1 "$1" > "$work/front"
    cmp -s "$work/front" <(head -c "$(stat -c %s "$work/front")" "$2")
}

# Refuses the calls of the run $1 one by one; the command follows.
refuse_each() {
    local name=$1 number=0 none=0 fronts=0 silent=0 same=0
    shift
    run "$work/$name" "$work/$name.plain" "$@"
    local due=$status
    while [[ $none -lt 3 ]]; do
        number=$((number + 1))
        rm -f "$work/mark"
        run "$work/$name" "$work/output" env LD_PRELOAD="$work/refuse.so" REFUSE=$number REFUSED="$work/mark" "$@"
        if [[ ! -e $work/mark ]]; then none=$((none + 1)); else none=0; fi
        if [[ $status -eq $due ]] && cmp -s "$work/output" "$work/$name.plain"; then
            same=$((same + 1))
        elif [[ $status -eq 9 && ! -s $work/output ]]; then
            silent=$((silent + 1))
        elif [[ $status -eq 9 ]] && is_front_with_fault "$work/output" "$work/$name.plain"; then
            fronts=$((fronts + 1))
        else
            complain "$name, call $number: status $status, output: $(tail -n 2 "$work/output" | tr '\n' '/')"
        fi
    done
    echo "$name: status $due, $((number - 3)) calls; refused: $fronts 'fault memory', $silent without output, $((same - 3)) as the plain run"
}

# The output of the run $1 is a front of the plain one, and its status is 8.
is_cut() {
    local size
    size=$(stat -c %s "$work/output")
    [[ $status -eq 8 ]] || complain "$1: status $status"
    cmp -s "$work/output" <(head -c "$size" "$work/fetch.plain") || complain "$1: what was taken is no front"
}

# Lets standard output take only so many bytes, or none.
refuse_output() {
    local size taken
    size=$(stat -c %s "$work/fetch.plain")
    trap '' XFSZ
    for ((taken = 0; taken < size; taken++)); do
        run "$work/fetch" "$work/output" prlimit --fsize="$taken" "$@"
        is_cut "output of at most $taken bytes"
        [[ $(stat -c %s "$work/output") -eq $taken ]] || complain "output of at most $taken bytes: not all were taken"
    done
    trap - XFSZ
    run "$work/fetch" /dev/full "$@"
    [[ $status -eq 8 ]] || complain "full device: status $status"
    mkfifo "$work/pipe"
    exec 3<> "$work/pipe" 4> "$work/pipe" 3<&-
    (cd "$work/fetch" && exec setsid timeout --foreground 60 "$@" >&4 2> "$work/errors") &
    await $!
    exec 4>&-
    [[ $status -eq 8 ]] || complain "closed pipe: status $status"
    echo "output: $size lengths, a full device, a closed pipe"
}

# A report that is a folder, and a program that is none.
refuse_input() {
    mkdir "$work/fetch/folder"
    run "$work/fetch" "$work/output" "$program" replay d p s folder
    [[ $status -eq 6 && $(cat "$work/output") = 'fault read report failed' ]] || complain "a folder as the report: status $status"
    run "$work/fetch" "$work/output" "$program" solve d p s -- ./none
    [[ $status -eq 7 && $(tail -n 1 "$work/output") = 'fault generator' ]] || complain "no such program: status $status"
    echo 'input: a folder, no such program'
}

cc -shared -fPIC -O1 -o "$work/refuse.so" "$root/bench/refuse.c"
write_row fetch outcomes.rows 'a plan is printed with its transcript'
write_row grid supposing.rows 'the generator of the grid in the process answers in adaptive mode'
write_row judged replays.rows 'a report as it was written is valid'
fetch=("$program" solve d p s -- sh -c 'while read request; do echo yield left; done')
refuse_each fetch "${fetch[@]}"
for mode in focused binding adaptive; do
    cp -r "$work/grid" "$work/$mode"
    refuse_each "$mode" "$program" solve d p s --algorithm "$mode" -- @grid f
done
refuse_each judged "$program" replay d p s r
refuse_output "${fetch[@]}"
refuse_input
echo "$wrong wrong"
[[ $wrong -eq 0 ]]
