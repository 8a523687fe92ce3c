#!/usr/bin/env bash
# Measures how long the built program takes to read, accept and store a plate one box thick, of 198,744 tetrahedra with marked triangles outside, with no round.
set -eu
. "$(dirname "${BASH_SOURCE[0]}")/measure.sh"
awk -v a=1 -v b=182 -v c=182 -f "$here/bench/marked.awk" >plate.msh
echo "$(wc -c <plate.msh) bytes"
measure plate.msh 64 0
