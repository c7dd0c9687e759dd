#!/usr/bin/env bash
# Times the answers of the built grid_gen (rt run in crates/grid_gen builds it) to requests for far corners of a large region,
# over three layouts of 1,000 obstacles: cells at places by chance; columns that leave every second column free; a stair of rows.
# A row: the layout, K, the answer, and the time of the whole program, the least and the greatest of nine runs.
set -eu
here=$(cd "$(dirname "$0")/.." && pwd)
folder=$(mktemp -d)
trap 'rm -rf "$folder"' EXIT
head='grid 1000 1000\nblock b 1 1 0 0\nregion r 0 0 1000 1000\n'
{
    printf "$head"
    awk 'BEGIN { srand(1); for (i = 0; i < 1000; i++) printf "obstacle %d %d 1 1\n", rand() * 1000, rand() * 1000 }'
} > "$folder/cells"
{
    printf "$head"
    awk 'BEGIN { for (i = 0; i < 1000; i++) printf "obstacle %d 0 1 %d\n", 2 * int(i / 2), i % 2 ? 1000 : 1000 - i }'
} > "$folder/columns"
{
    printf "$head"
    awk 'BEGIN { for (i = 0; i < 1000; i++) printf "obstacle 0 %d %d 1\n", i, i + 1 }'
} > "$folder/stair"
for layout in cells columns stair; do
    for turn in 0 1000 100000 450000 900000 998000 2000000; do
        for run in 1 2 3 4 5 6 7 8 9; do
            start=$(date +%s%N)
            answer=$(echo "next $turn place b r" | "$here/crates/grid_gen/out/grid_gen" "$folder/$layout")
            end=$(date +%s%N)
            echo "$layout $turn $answer $(((end - start) / 1000))"
        done | awk '{ last = $NF; if (NR == 1 || last < least) least = last; if (last > most) most = last; $NF = ""; row = $0 }
            END { printf "%-28s %6.1f ms  %6.1f ms\n", row, least / 1000, most / 1000 }'
    done
done
