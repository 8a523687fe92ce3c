#!/usr/bin/env bash
# Measures how long the built program takes to read, accept and store a cube of 196,608 tetrahedra with marked triangles outside, with no round.
set -eu
. "$(dirname "${BASH_SOURCE[0]}")/measure.sh"
awk -v a=32 -v b=32 -v c=32 -f "$here/bench/marked.awk" >cube.msh
echo "$(wc -c <cube.msh) bytes"
measure cube.msh 64 0
