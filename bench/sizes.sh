#!/usr/bin/env bash
# Measures a round over 103,680 tetrahedra, none of whose edges is long or all of whose edges are, with one box of sizes and with 10,000: small ones anywhere, plates across the whole mesh, boxes with two corners anywhere, boxes round one another, and boxes that all cover everything. With no round the same files are read and stored.
set -eu
. "$(dirname "${BASH_SOURCE[0]}")/measure.sh"
awk -v a=24 -v b=24 -v c=30 -f "$here/bench/marked.awk" >body.msh

# A size file of the kind $1 with $2 boxes, whose sizes are $3.
sizes() {
    python3 - "$@" <<'END_OF_SIZES'
import random, sys
kind, boxes, size = sys.argv[1], int(sys.argv[2]), sys.argv[3]
draw = random.Random(7)
ends = (24 * 64, 24 * 64, 30 * 64)
print("default", size)
for k in range(boxes):
    if kind == "small":
        low = [draw.randrange(end) for end in ends]
        high = [x + 64 for x in low]
    elif kind == "plates":
        axis = k % 3
        low, high = [0, 0, 0], list(ends)
        low[axis] = high[axis] = draw.randrange(ends[axis])
    elif kind == "anywhere":
        corners = [sorted((draw.randrange(end), draw.randrange(end))) for end in ends]
        low, high = [c[0] for c in corners], [c[1] for c in corners]
    elif kind == "nested":
        low, high = [k // 20] * 3, [end - k // 20 for end in ends]
    else:
        low, high = [0, 0, 0], ends
    print("box", *low, *high, size)
END_OF_SIZES
}

for size in 4096 4; do
    for kind in "small 1" "small 10000" "plates 10000" "anywhere 10000" "nested 10000" "all 10000"; do
        # shellcheck disable=SC2086
        sizes $kind "$size" >sizes.txt
        for rounds in 0 1; do
            echo "size $size, $kind, $rounds rounds: $(measure_sizes body.msh sizes.txt "$rounds")"
        done
    done
done
