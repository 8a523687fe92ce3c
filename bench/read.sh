#!/usr/bin/env bash
# Measures the built program on a file of about 60 MiB: 200,000 tetrahedra, and nodes that none of them uses.
set -eu
. "$(dirname "${BASH_SOURCE[0]}")/measure.sh"
awk -v a=40 -v b=25 -v c=40 -v further=2100000 -f "$here/bench/box.awk" >large.msh
echo "$(wc -c <large.msh) bytes"
measure large.msh 64 0
