#!/usr/bin/env bash
# Times the reader of trees on texts of 1, 2 and 4 MiB. No part of the gate.
#
# Builds a program over crates/sexpr_text in a folder of its own, and runs it on each text. The program
# reads standard input and prints how long `read_tree` took, in microseconds. The least of five runs is
# shown, with the most memory that the process held.
set -euo pipefail
root=$(cd "$(dirname "$0")/.." && pwd)
work=$(mktemp -d)
trap 'rm -rf "$work"' EXIT

mkdir -p "$work/crates/read_bench/src"
cp -r "$root/crates/sexpr_text" "$work/crates/"
rm -rf "$work/crates/sexpr_text/out"
printf 'sexpr_text: smallvec thiserror\nread_bench: anyhow sexpr_text\n' > "$work/crates.txt"
cat > "$work/crates/read_bench/src/main.rt" <<'PROGRAM'
// Reads standard input as a tree, and prints the microseconds that it took.
#![tactic(auto)]

use std::io::Read;
use std::time::Instant;

use anyhow::Result;

fn main(rt: HostRuntime) -> Result<()> {
    let mut bytes = Vec::new(rt.alloc());
    rt.stdin().read_to_end(&mut bytes)?;
    let start = Instant::now(&rt)?;
    let tree = sexpr_text::read_tree(rt.alloc(), &bytes)?;
    let took = start.elapsed(&rt)?.as_micros();
    let place = tree.place();
    println!(rt; "{took} {place}")?;
    Ok(())
}
PROGRAM
(cd "$work/crates/read_bench" && printf '()' | rt run > "$work/build.log" 2>&1) || { tail -20 "$work/build.log"; exit 1; }
program="$work/crates/read_bench/out/read_bench"

# repeated TEXT BYTES: the text again and again, up to so many bytes
repeated() { yes "$1" | tr -d '\n' | head -c "$2" || true; }
nest=$(printf '(%.0s' $(seq 63); printf ')%.0s' $(seq 63))

text_of() {
    case $1 in
        'one word') printf '('; repeated a $(($2 - 2)); printf ')' ;;
        'one comment') printf ';'; repeated '(x' $(($2 - 4)); printf '\n()' ;;
        'one flat list') printf '('; repeated 'a ' $(($2 - 2)); printf ')' ;;
        'many short lists') printf '('; repeated '(a b)' $((($2 - 2) / 5 * 5)); printf ')' ;;
        'lists 64 deep') printf '('; repeated "$nest" $((($2 - 2) / 126 * 126)); printf ')' ;;
    esac
}

printf '| Text | 1 MiB | 2 MiB | 4 MiB | memory at 4 MiB |\n|---|---|---|---|---|\n'
for kind in 'one word' 'one comment' 'one flat list' 'many short lists' 'lists 64 deep'; do
    row="| $kind |"
    for mib in 1 2 4; do
        text_of "$kind" $((mib * 1048576)) > "$work/text"
        best=
        for _ in 1 2 3 4 5; do
            took=$("$program" < "$work/text" | cut -d' ' -f1)
            if [ -z "$best" ] || [ "$took" -lt "$best" ]; then best=$took; fi
        done
        row="$row $((best / 1000)).$((best / 100 % 10)) ms |"
    done
    memory=$( { /usr/bin/time -f %M "$program" < "$work/text" > "$work/out"; } 2>&1 | tail -1)
    printf '%s %s MiB |\n' "$row" $((memory / 1024))
done
