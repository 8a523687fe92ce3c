#!/usr/bin/env bash
# Measures how long the built program takes to read, accept and store a box of 200,000 tetrahedra, and one of half as many, with no round.
set -eu
. "$(dirname "${BASH_SOURCE[0]}")/measure.sh"
awk -v a=40 -v b=25 -v c=20 -v further=0 -f "$here/bench/box.awk" >half.msh
awk -v a=40 -v b=25 -v c=40 -v further=0 -f "$here/bench/box.awk" >whole.msh
for name in half whole; do
    echo "$name: $(wc -c <"$name.msh") bytes"
    measure "$name.msh" 64 0
done
