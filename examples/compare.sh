#!/usr/bin/env bash
# Whether the examples do what their stored outputs say. It is no part of the gate, since it wants Python and a C compiler.
#
# usage: bash examples/compare.sh [PROGRAM]
#
# PROGRAM is a built pddlstream; without it the one that `rt run` leaves in crates/pddlstream/out is taken. Each line says
# `same`, `differs` or `skipped` and why; it ends with 1 where something differs.
set -u
here=$(cd "$(dirname "$0")/.." && pwd)
program=$(realpath "${1:-$here/crates/pddlstream/out/pddlstream}" 2>/dev/null || true)
work=$(mktemp -d)
trap 'rm -rf "$work"' EXIT
worst=0

# same WHAT FILE FILE
same() {
    if cmp -s "$2" "$3"; then
        echo "same: $1"
    else
        echo "differs: $1"
        diff "$2" "$3" | head -5
        worst=1
    fi
}

has() { command -v "$1" >/dev/null; }

# solve FOLDER WORDS: the report of the folder's task
solve() {
    local folder=$1
    shift
    "$program" solve "$folder/domain.pddl" "$folder/problem.pddl" "$folder/streams.pddl" "$@"
}

# replay FOLDER REPORT: what is said of it
replay() {
    "$program" replay "$1/domain.pddl" "$1/problem.pddl" "$1/streams.pddl" "$2"
}

echo valid > "$work/valid"
can_run=yes
if [ ! -x "$program" ]; then
    can_run=no
    echo "skipped: all runs, since there is no program; rt run in crates/pddlstream builds it, or name one"
fi

# ---- shelf: one generator three times. Its files stand in crates/row_runs/data, where the gate runs the shell's.
data=$here/crates/row_runs/data
requests=$work/requests
for item in cup pan; do
    for turn in 0 1 2 3 4 5; do echo "next $turn spot $item"; done
    for place in 2 4 6 8; do
        for turn in 0 1; do echo "next $turn apart $item #$place corner"; done
    done
done > "$requests"
echo "next 0 lift cup" >> "$requests"
awk '/^== /{shelf = /a map of two pools, of two workers and of one$/; next} shelf' "$here/crates/row_runs/stdout" | sed '/^done$/q' > "$work/shelf"

sh "$data/shelf/shelf.sh" < "$requests" > "$work/sh.answers"
# generator NAME WORDS: it answers as the shell's does, and the plan with it is the stored one
generator() {
    local name=$1
    shift
    if [ "$name" != sh ]; then
        "$@" < "$requests" > "$work/$name.answers"
        same "shelf, shelf.$name and shelf.sh to $(wc -l < "$requests") requests" "$work/$name.answers" "$work/sh.answers"
    fi
    if [ "$can_run" = yes ]; then
        (cd "$data" && solve shelf -- "$@") > "$work/$name.report"
        same "shelf, the report with shelf.$name" "$work/$name.report" "$data/shelf/report"
        (cd "$data" && solve shelf --workers 3 -- "$@") | sed -n '/^plan/,$p' > "$work/$name.plan"
        same "shelf, the plan with three workers of shelf.$name" "$work/$name.plan" <(sed -n '/^plan/,$p' "$data/shelf/report")
    fi
}
generator sh sh "$data/shelf/shelf.sh"
if has python3; then generator py python3 "$data/shelf/shelf.py"; else echo "skipped: shelf.py, since there is no python3"; fi
if has cc && cc -o "$work/shelf-c" "$data/shelf/shelf.c"; then
    generator c "$work/shelf-c"
else
    echo "skipped: shelf.c, since there is no cc that compiles it"
fi
if [ "$can_run" = yes ]; then
    (cd "$data" && solve shelf --map shelf/map.json) > "$work/map.report"
    same "shelf, the report with its map" "$work/map.report" "$work/shelf"
    replay "$data/shelf" "$data/shelf/report" > "$work/said"
    same "shelf, its stored report is valid" "$work/said" "$work/valid"
fi

# ---- light: a task without streams
if [ "$can_run" = yes ]; then
    solve "$here/examples/light" > "$work/light"
    same "light, the report" "$work/light" "$here/examples/light/report"
fi

# ---- arms, kitchen, bin and crash: samplers in Python
# stored NAME WORDS: the example's stored report is valid, and comes out
stored() {
    local name=$1 folder=$here/examples/$1
    shift
    replay "$folder" "$folder/report" > "$work/said"
    same "$name, its stored report is valid" "$work/said" "$work/valid"
    if has python3; then
        (cd "$folder" && solve . "$@") > "$work/$name.report"
        same "$name, the report" "$work/$name.report" "$folder/report"
    else
        echo "skipped: $name, since there is no python3"
    fi
}
if [ "$can_run" = yes ]; then
    stored arms --algorithm focused -- python3 arms.py
    stored kitchen --algorithm adaptive -- python3 kitchen.py scene.json
    stored bin --protocol 2 -- python3 bin.py 4
    stored crash --restarts 3 -- python3 crash.py
fi

# ---- bin: the same by one tuple a line, in protocol 1 and 2, and its report of version 1 migrated
bin=$here/examples/bin
if [ "$can_run" = yes ]; then
    "$program" migrate "$bin/earlier" > "$work/migrated"
    same "bin, the report of version 1 in version 2" "$work/migrated" "$bin/migrated"
    "$program" migrate "$bin/report" > "$work/again"
    same "bin, a report of version 2 in version 2" "$work/again" "$bin/report"
    for report in earlier migrated; do
        replay "$bin" "$bin/$report" > "$work/said"
        same "bin, its stored report is valid, $report" "$work/said" "$work/valid"
    done
    if has python3; then
        (cd "$bin" && solve . -- python3 bin.py) > "$work/earlier"
        same "bin, the report of one tuple a line" "$work/earlier" "$bin/earlier"
        (cd "$bin" && solve . --protocol 2 -- python3 bin.py) > "$work/later"
        same "bin, the report of one tuple a line in protocol 2" "$work/later" "$bin/migrated"
    else
        echo "skipped: the runs of the bin by one tuple a line, since there is no python3"
    fi
fi

# ---- pack: a sampler in the shell, and a picture of the stages of its plan
pack=$here/examples/pack
if [ "$can_run" = yes ]; then
    solve "$pack" -- sh "$pack/grip.sh" > "$work/pack"
    same "pack, the report" "$work/pack" "$pack/report"
    replay "$pack" "$pack/report" > "$work/said"
    same "pack, its stored report is valid" "$work/said" "$work/valid"
    "$program" deorder "$pack/domain.pddl" "$pack/problem.pddl" "$pack/streams.pddl" "$pack/report" > "$work/order"
    same "pack, what of its plan must stay in order" "$work/order" "$pack/order"
fi
if has python3; then
    python3 "$pack/stages.py" "$pack/order" --svg > "$work/stages"
    same "pack, the picture of its stages" "$work/stages" "$pack/stages.svg"
else
    echo "skipped: the picture of the stages, since there is no python3"
fi

# ---- tray: places that are sampled in Python
tray=$here/examples/tray
if [ "$can_run" = yes ]; then
    replay "$tray" "$tray/report" > "$work/said"
    same "tray, its stored report is valid" "$work/said" "$work/valid"
    if has python3; then
        for workers in 1 3; do
            solve "$tray" --workers $workers -- python3 "$tray/tray.py" > "$work/tray$workers"
        done
        same "tray, the report" "$work/tray1" "$tray/report"
        same "tray, the plan with three workers" <(sed -n '/^plan/,$p' "$work/tray3") <(sed -n '/^plan/,$p' "$tray/report")
    else
        echo "skipped: the run of the tray, since there is no python3"
    fi
fi

# ---- grid: the generator that ships with the planner, and a picture of its plan
grid=$here/examples/grid
if [ "$can_run" = yes ]; then
    solve "$grid" -- @grid "$grid/grid.txt" > "$work/grid"
    same "grid, the report" "$work/grid" "$grid/report"
    replay "$grid" "$grid/report" > "$work/said"
    same "grid, its stored report is valid" "$work/said" "$work/valid"
    "$program" play "$grid/domain.pddl" "$grid/problem.pddl" "$grid/streams.pddl" "$grid/report" "$grid/grid.txt" > "$work/play"
    same "grid, its plan acted out" "$work/play" "$grid/play"
fi
if has python3; then
    python3 "$grid/draw.py" "$grid/report" "$grid/grid.txt" > "$work/picture"
    same "grid, the picture of its plan" "$work/picture" "$grid/picture"
    python3 "$grid/frames.py" "$grid/play" "$grid/grid.txt" --svg > "$work/play.svg"
    same "grid, the page of its blocks in motion" "$work/play.svg" "$grid/play.svg"
else
    echo "skipped: the pictures of the grid, since there is no python3"
fi

# ---- the commands of the guides
if [ "$can_run" = yes ] && has python3; then
    python3 "$here/examples/pages.py" "$program" || worst=1
else
    echo "skipped: the commands of the guides, since there is no program or no python3"
fi
exit $worst
