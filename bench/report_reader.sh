#!/usr/bin/env bash
# Times the reader of reports on reports of 1,000 to 400,000 requests. No part of the gate.
#
# Builds a program over crates/report_reader in a folder of its own, and runs it on each report. The program
# reads standard input and prints how long `read_report` took, in microseconds, and the first faulty line, or
# 0. The least of five runs is shown, with the most memory that the process held.
set -euo pipefail
root=$(cd "$(dirname "$0")/.." && pwd)
work=$(mktemp -d)
trap 'rm -rf "$work"' EXIT

mkdir -p "$work/crates/report_bench/src"
for crate in lemmas io_world task_model gen_lines transcript_model report_text report_reader; do
    cp -r "$root/crates/$crate" "$work/crates/"
    grep "^$crate:" "$root/crates.txt" >> "$work/crates.txt"
done
echo 'report_bench: anyhow report_reader report_text' >> "$work/crates.txt"
cat > "$work/crates/report_bench/src/main.rt" <<'PROGRAM'
// Reads standard input as a report, and prints the microseconds that it took and the first faulty line, or 0.
#![tactic(auto)]

use std::io::Read;
use std::time::Instant;

use anyhow::Result;
use report_text::ReportFault;

fn main(rt: HostRuntime) -> Result<()> {
    let mut bytes = Vec::new(rt.alloc());
    rt.stdin().read_to_end(&mut bytes)?;
    if bytes.len() > 1_000_000_000 {
        return Ok(());
    }
    let start = Instant::now(&rt)?;
    let read = report_reader::read_report(rt.alloc(), &bytes);
    let took = start.elapsed(&rt)?.as_micros();
    let line = match read {
        Ok(_) => 0,
        Err(ReportFault::At { line, .. }) => line,
        Err(ReportFault::Memory) => 4_000_000_000,
    };
    println!(rt; "{took} {line}")?;
    Ok(())
}
PROGRAM
(cd "$work/crates/report_bench" && printf 'x\n' | rt run > "$work/build.log" 2>&1) || { tail -20 "$work/build.log"; exit 1; }
program="$work/crates/report_bench/out/report_bench"

report_of() {
    printf 'pddlstream 1 incremental\nlimits 100000 100000 3\npool 1 grip\nlevel\n'
    awk -v n="$1" 'BEGIN { for (i = 1; i <= n; i++) printf "ask %d 0 grip cup-%d\ngot %d left-%d\n", i, i, i, i }'
    printf 'no plan\ndone\n'
}

printf '| Requests | bytes | time | memory |\n|---|---|---|---|\n'
for count in 1000 10000 100000 200000 400000; do
    report_of "$count" > "$work/report"
    best=
    for _ in 1 2 3 4 5; do
        took=$("$program" < "$work/report" | cut -d' ' -f1)
        if [ -z "$best" ] || [ "$took" -lt "$best" ]; then best=$took; fi
    done
    memory=$( { /usr/bin/time -f %M "$program" < "$work/report" > "$work/out"; } 2>&1 | tail -1)
    printf '| %s | %s | %s.%s ms | %s MiB |\n' "$count" "$(stat -c %s "$work/report")" $((best / 1000)) $((best / 100 % 10)) $((memory / 1024))
done
