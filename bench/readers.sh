#!/usr/bin/env bash
# Times the readers of domains, problems and stream files on large texts. No part of the gate.
#
# Builds a program over the readers in a folder of its own, with a copy of their crates and of what earlier checks of these
# crates kept. The program writes the texts and prints how long each reader took over its tree, in milliseconds
# (`read_tree` is measured by sexpr_text.sh). The least of five runs is shown.
set -euo pipefail
root=$(cd "$(dirname "$0")/.." && pwd)
work=$(mktemp -d)
trap 'rm -rf "$work"' EXIT

mkdir -p "$work/crates/readers_bench/src"
for crate in lemmas sexpr_text task_model fit_check form_reader name_tables domain_reader problem_reader stream_reader; do
    cp -a "$root/crates/$crate" "$work/crates/"
    grep "^$crate:" "$root/crates.txt" >> "$work/crates.txt"
done
printf 'readers_bench: anyhow sexpr_text task_model domain_reader problem_reader stream_reader\n' >> "$work/crates.txt"
cat > "$work/crates/readers_bench/src/main.rt" <<'PROGRAM'
// Writes domains, problems and stream files, and prints the milliseconds that it takes to read them.
#![tactic(auto)]

use std::alloc::{AllocError, Global};
use std::fmt::Write;
use std::time::Instant;

use anyhow::Result;
use domain_reader::read_domain;
use problem_reader::read_problem;
use sexpr_text::read_tree;
use stream_reader::read_streams;
use task_model::Domain;

/// A domain with so many predicates and so many actions, and one predicate that nothing changes.
fn domain_text(alloc: Global, count: usize) -> Result<String, AllocError> {
    let mut text = String::new(alloc);
    write!(text, "(define (domain large) (:types t) (:functions (f ?x)) (:predicates (s ?x ?y)")?;
    for number in 0..count {
        write!(text, " (p{number} ?x ?y)")?;
    }
    write!(text, ")")?;
    for number in 0..count {
        write!(text, "(:action a{number} :parameters (?x ?y) :precondition (p{number} ?x ?y) :effect (not (p{number} ?y ?x)))")?;
    }
    write!(text, ")")?;
    Ok(text)
}

/// A problem with so many objects, each with a fact and a value.
fn problem_text(alloc: Global, count: usize) -> Result<String, AllocError> {
    let mut text = String::new(alloc);
    write!(text, "(define (problem large) (:domain large) (:objects")?;
    for number in 0..count {
        write!(text, " o{number}")?;
    }
    write!(text, " - t) (:init")?;
    for number in 0..count {
        write!(text, " (p0 o{number} o0) (= (f o{number}) 7)")?;
    }
    write!(text, ") (:goal (p0 o0 o0)))")?;
    Ok(text)
}

/// A stream file with so many streams, none of which leads to another.
fn streams_text(alloc: Global, count: usize) -> Result<String, AllocError> {
    let mut text = String::new(alloc);
    write!(text, "(define (stream large)")?;
    for number in 0..count {
        write!(text, "(:stream s{number} :inputs (?x - t ?y - t) :certified (s ?x ?y))")?;
    }
    write!(text, ")")?;
    Ok(text)
}

fn time_domain(rt: &HostRuntime, count: usize) -> Result<()> {
    let text = domain_text(rt.alloc(), count)?;
    let tree = read_tree(rt.alloc(), text.as_bytes())?;
    let start = Instant::now(rt)?;
    let domain = read_domain(rt.alloc(), &tree)?;
    let took = start.elapsed(rt)?.as_millis();
    let actions = domain.actions.len();
    println!(rt; "domain {actions} {took}")?;
    Ok(())
}

fn time_problem(rt: &HostRuntime, domain: &Domain, count: usize) -> Result<()> {
    let text = problem_text(rt.alloc(), count)?;
    let tree = read_tree(rt.alloc(), text.as_bytes())?;
    let start = Instant::now(rt)?;
    let problem = read_problem(rt.alloc(), &tree, domain)?;
    let took = start.elapsed(rt)?.as_millis();
    let objects = problem.objects.len();
    println!(rt; "problem {objects} {took}")?;
    Ok(())
}

fn time_streams(rt: &HostRuntime, domain: &Domain, count: usize) -> Result<()> {
    let text = streams_text(rt.alloc(), count)?;
    let tree = read_tree(rt.alloc(), text.as_bytes())?;
    let start = Instant::now(rt)?;
    let streams = read_streams(rt.alloc(), domain, &tree)?;
    let took = start.elapsed(rt)?.as_millis();
    let count = streams.len();
    println!(rt; "streams {count} {took}")?;
    Ok(())
}

fn main(rt: HostRuntime) -> Result<()> {
    let small = domain_text(rt.alloc(), 1)?;
    let small_tree = read_tree(rt.alloc(), small.as_bytes())?;
    let small_domain = read_domain(rt.alloc(), &small_tree)?;
    for count in [1000, 2000, 4000] {
        time_domain(&rt, count)?;
    }
    for count in [5000, 10000, 20000] {
        time_problem(&rt, &small_domain, count)?;
    }
    for count in [250, 500, 1000] {
        time_streams(&rt, &small_domain, count)?;
    }
    Ok(())
}
PROGRAM
(cd "$work/crates/readers_bench" && rt run > "$work/build.log" 2>&1) || { tail -20 "$work/build.log"; exit 1; }
for _ in 1 2 3 4 5; do "$work/crates/readers_bench/out/readers_bench"; done | sort -k1,1 -k2,2n -k3,3n | awk '!seen[$1 $2]++ { print $1, $2, $3 " ms" }'
