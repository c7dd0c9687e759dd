#!/usr/bin/env bash
# Prints how many requests each mode makes for the examples: a row for each task. It wants Python, and is no part of the gate.
#
# usage: bash examples/modes.sh [PROGRAM]
set -u
here=$(cd "$(dirname "$0")/.." && pwd)
program=$(realpath "${1:-$here/crates/pddlstream/out/pddlstream}")

# row NAME FOLDER WORDS: the requests of the task in the folder
row() {
    local name=$1 folder=$2
    shift 2
    printf '| %s |' "$name"
    for mode in incremental focused binding adaptive; do
        (cd "$folder" && "$program" solve domain.pddl problem.pddl streams.pddl --algorithm $mode "$@" | grep -c '^ask') | tr '\n' ' ' |
            sed 's/^/ /; s/$/|/'
    done
    echo
}

echo '| Task | `incremental` | `focused` | `binding` | `adaptive` |'
echo '|---|---|---|---|---|'
row shelf "$here/crates/row_runs/data/shelf" -- sh shelf.sh
row 'tray, `--depth 4`' "$here/examples/tray" --depth 4 -- python3 tray.py
row grid "$here/examples/grid" -- @grid grid.txt
row arms "$here/examples/arms" -- python3 arms.py
row kitchen "$here/examples/kitchen" -- python3 kitchen.py scene.json
