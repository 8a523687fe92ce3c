#!/usr/bin/env bash
# Measures runs over the parts of a cube of 24,576 tetrahedra whose corners, edges and sides are marked, with no round, and with one that refines it to 98,304: plain, and over 1, 2, 8 and 64 parts that are cut along its first axis, by the oldest letter, and over 8 by 10,000 random picks. And the same cube coarsened in two rounds with two passes of collapses and two of swaps each.
set -eu
. "$(dirname "${BASH_SOURCE[0]}")/measure.sh"
awk -v g=16 -f "$here/bench/classified.awk" >cube.msh
tets=$((6 * 16 * 16 * 16))
: >oldest.sched
awk 'BEGIN { srand(3); for (i = 0; i < 10000; i++) print int(rand() * 1000000) }' >random.sched
for parts in 1 2 8 64; do
    awk -v t="$tets" -v p="$parts" 'BEGIN { for (i = 0; i < t; i++) print int(i * p / t) }' >"$parts.part"
done
for rounds in 0 1; do
    echo "$rounds rounds, plain: $(measure cube.msh 48 "$rounds")"
    for parts in 1 2 8 64; do
        echo "$rounds rounds, $parts parts: $(measure_parts cube.msh 48 "$parts" "$parts.part" oldest.sched "$rounds")"
    done
    echo "$rounds rounds, 8 parts, random picks: $(measure_parts cube.msh 48 8 8.part random.sched "$rounds")"
done
echo "coarsened, plain: $(measure cube.msh 200 2 2 2)"
for parts in 1 2 8 64; do
    echo "coarsened, $parts parts: $(measure_parts cube.msh 200 "$parts" "$parts.part" oldest.sched 2 2 2)"
done
