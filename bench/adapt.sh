#!/usr/bin/env bash
# Measures whole adaptations of a cube of 24,576 tetrahedra whose corners, edges and sides are marked: two rounds that coarsen it, with two passes of collapses and two of swaps in each, and two that refine it first, with a pass of each. And the same over a cube of 49,152, which is twice as long.
set -eu
. "$(dirname "${BASH_SOURCE[0]}")/measure.sh"
awk -v g=16 -f "$here/bench/classified.awk" >cube.msh
awk -v g=16 -v h=32 -f "$here/bench/classified.awk" >twice.msh
for mesh in cube.msh twice.msh; do
    echo "$mesh, coarsened: $(measure "$mesh" 200 2 2 2)"
    echo "$mesh, refined: $(measure "$mesh" 48 2 1 1)"
    echo "$mesh, no round: $(measure "$mesh" 200 0 0 0)"
done
