#!/usr/bin/env bash
# Times how long a browser takes to open the page of a report of 100,000 requests (tools/report.py --html). No part of the gate.
#
# usage: bash bench/report_page.sh [BROWSER WORDS]
#
# The browser is Chromium, or one that takes its options; `chrt -r 10 chromium` before it keeps other work from counting. It
# shows the size of the page, and of three runs the milliseconds from the opening until all is drawn.
set -euo pipefail
root=$(cd "$(dirname "$0")/.." && pwd)
folder=$(mktemp -d)
trap 'rm -rf "$folder"' EXIT
[ $# -gt 0 ] || set -- chromium

python3 - > "$folder/report" <<'PROGRAM'
"""Prints a report in adaptive mode: 1,845 dreams, each picked once, whose rounds ask four streams of three pools."""
import random

chance = random.Random(3)
print("pddlstream 1 adaptive\nlimits 100000 100000 4\npool 4 place clear\npool 4 reach motion\npool 1 turn")
number = dream = 0
while number < 100000:
    dream += 1
    cup = f"cup{dream % 50}"
    print(f"dream 3 2\nuse 1 place {cup}\nuse 2 clear {cup} @1.1\nuse 3 reach {cup} @1.1")
    print(f"step put cup @1.1 @3.1\nstep drop cup\npick {dream}")
    for _ in range(12):
        asked = []
        for stream, most in (("place", 4), ("reach", 3), ("motion", 1), ("turn", 1)):
            for _ in range(chance.randint(0, most)):
                if number < 100000:
                    number += 1
                    asked.append((number, stream))
                    print(f"ask {number} 0 {stream} {cup} #0.{number},{dream}.5")
        for one, stream in asked:
            share = chance.random()
            print(f"value {one} {one}" if stream == "turn" else f"got {one} 0.{one},1.{one}" if share < 0.6 else f"end {one}")
print("plan 2\ndo put cup #0.1,1.1 #0.9,1.9\ndo drop cup\ncost 2\nfrom #0.1,1.1 1\nfrom #0.9,1.9 9\ndone")
PROGRAM
python3 "$root/tools/report.py" --html "$folder/report" > "$folder/page.html"
echo "$(grep -c '^ask ' "$folder/report") requests, a page of $(wc -c < "$folder/page.html") bytes"
for _ in 1 2 3; do
    "$@" --headless=new --no-sandbox --disable-gpu --dump-dom "file://$folder/page.html" 2> /dev/null |
        grep -o -m1 'data-milliseconds="[0-9]*"'
done
