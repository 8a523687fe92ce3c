#!/usr/bin/env bash
# Runs three tetrahedra with a common corner over three parts, with no round and with two, by 200 random schedules each, of as many picks as there are letters, and tells how many of the runs left the files and lines of the one by the oldest letter.
set -eu
. "$(dirname "${BASH_SOURCE[0]}")/measure.sh"
cat >three.msh <<'END'
$MeshFormat
2.2 0 8
$EndMeshFormat
$Nodes
7
1 0 0 0
2 8 0 0
3 0 8 0
4 0 0 8
5 -8 0 0
6 0 -8 0
7 0 0 -8
$EndNodes
$Elements
5
1 15 2 0 3 1
2 1 2 0 4 1 2
3 4 2 0 1 1 2 3 4
4 4 2 0 1 1 2 6 7
5 4 2 0 2 1 5 3 7
$EndElements
END
printf '0\n1\n2\n' >three.part

# What a run with $1 rounds by the schedule $2 prints and stores.
left() {
    rm -f out.*
    "$program" --mesh three.msh --uniform 4 --parts 3 --partition three.part --schedule "$2" --rounds "$1" --collapse 0 --swap 0 --out out
    cat out.msh out.p0.msh out.p1.msh out.p2.msh
}

: >oldest.sched
for rounds in 0 2; do
    left "$rounds" oldest.sched >oldest.left
    same=0
    for seed in $(seq 200); do
        awk -v seed="$seed" -v rounds="$rounds" 'BEGIN { srand(seed); for (i = 0; i < 18 * (rounds + 1); i++) print int(rand() * 1000000) }' >random.sched
        left "$rounds" random.sched >random.left
        if cmp -s oldest.left random.left; then same=$((same + 1)); fi
    done
    grep ':' oldest.left
    echo "$rounds rounds: $same of 200 schedules left the same"
done
