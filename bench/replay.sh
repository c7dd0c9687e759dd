#!/usr/bin/env bash
# Times the command `replay` on reports of 100, 1,000 and 10,000 requests. No part of the gate.
#
# Builds the program in place (`rt run` in crates/pddlstream, which proves what isn't proved yet) and runs it on reports that this
# script writes. In "one level" so many cups are asked once each; in "levels" one cup is asked again and again, a level each time.
# The least of three runs is shown, with the most memory that the process held.
set -euo pipefail
root=$(cd "$(dirname "$0")/.." && pwd)
work=$(mktemp -d)
trap 'rm -rf "$work"' EXIT
(cd "$root/crates/pddlstream" && rt run > "$work/build.log" 2>&1) || true
program="$root/crates/pddlstream/out/pddlstream"

cat > "$work/domain" <<'TEXT'
(define (domain fetch)
  (:predicates (item ?x) (hold ?x ?g) (grip ?x ?g) (free) (done ?x))
  (:action take :parameters (?x ?g)
    :precondition (and (free) (grip ?x ?g))
    :effect (and (hold ?x ?g) (not (free))))
  (:action drop :parameters (?x ?g) :precondition (hold ?x ?g)
    :effect (and (done ?x) (free) (not (hold ?x ?g)))))
TEXT
cat > "$work/streams" <<'TEXT'
(define (stream fetch) (:stream grip :inputs (?x) :domain (item ?x)
  :outputs (?g) :certified (grip ?x ?g)))
TEXT

problem_of() {
    printf '(define (problem many) (:domain fetch) (:objects'
    awk -v n="$1" 'BEGIN { for (i = 1; i <= n; i++) printf " cup-%06d", i }'
    printf ')\n  (:init (free)'
    awk -v n="$1" 'BEGIN { for (i = 1; i <= n; i++) printf " (item cup-%06d)", i }'
    printf ') (:goal %s))\n' "$2"
}

one_level() {
    problem_of "$1" '(done cup-000001)' > "$work/problem"
    {
        printf 'pddlstream 1 incremental\nlimits 100000 100000 3\npool 1 grip\nlevel\n'
        awk -v n="$1" 'BEGIN { for (i = 1; i <= n; i++) printf "ask %d 0 grip cup-%06d\ngot %d left-%d\n", i, i, i, i }'
        printf 'plan 2\ndo take cup-000001 #left-1\ndo drop cup-000001 #left-1\ncost 2\nfrom #left-1 1\ndone\n'
    } > "$work/report"
}

levels() {
    problem_of 1 '(grip cup-000001 cup-000001)' > "$work/problem"
    {
        printf 'pddlstream 1 incremental\nlimits %d 100000 3\npool 1 grip\n' "$1"
        awk -v n="$1" 'BEGIN { for (i = 1; i <= n; i++) printf "level\nask %d %d grip cup-000001\ngot %d left-%d\n", i, i - 1, i, i }'
        printf 'limit calls\ndone\n'
    } > "$work/report"
}

printf '| Report | requests | bytes | time | memory |\n|---|---|---|---|---|\n'
for shape in one_level levels; do
    for count in 100 1000 10000; do
        "$shape" "$count"
        best=
        for _ in 1 2 3; do
            start=$(date +%s%N)
            said=$("$program" replay "$work/domain" "$work/problem" "$work/streams" "$work/report" || true)
            took=$((($(date +%s%N) - start) / 1000))
            if [ "$said" != valid ]; then echo "$shape $count: $said" >&2; exit 1; fi
            if [ -z "$best" ] || [ "$took" -lt "$best" ]; then best=$took; fi
        done
        memory=$( { /usr/bin/time -f %M "$program" replay "$work/domain" "$work/problem" "$work/streams" "$work/report" > "$work/out"; } 2>&1 | tail -1)
        bytes=$(stat -c %s "$work/report")
        time=$((best / 1000)).$((best / 100 % 10))
        printf '| %s | %s | %s | %s ms | %s MiB |\n' "${shape/_/ }" "$count" "$bytes" "$time" $((memory / 1024))
    done
done
