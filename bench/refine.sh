#!/usr/bin/env bash
# Measures the built program where it refines one tetrahedron whose edges are all long in each round: six rounds give 262,144 tetrahedra, and the seventh gives more than a mesh may have.
set -eu
. "$(dirname "${BASH_SOURCE[0]}")/measure.sh"
cat >corner.msh <<'END'
$MeshFormat
2.2 0 8
$EndMeshFormat
$Nodes
4
1 0 0 0
2 256 0 0
3 0 256 0
4 0 0 256
$EndNodes
$Elements
1
1 4 2 0 1 1 2 3 4
$EndElements
END
for rounds in 6 7; do
    echo "$rounds rounds"
    measure corner.msh 1 "$rounds"
done
