#!/usr/bin/env bash
# Tests the tools on models that gmsh's Python module makes, or on the coarse ones in examples/ where there is none, or with --examples. MESHADAPT names the program to run; else the wrapper ./meshadapt builds it.
here="$(dirname "$(readlink -f "${BASH_SOURCE[0]}")")"
for python in python3 /usr/bin/python3; do
    if "$python" -c 'from meshio import Mesh' 2>/dev/null; then
        exec "$python" -B "$here/tests.py" "$@"
    fi
done
echo "the tools can't be tested without meshio, as by: apt-get install python3-meshio"
echo "0 passed, 1 failed"
exit 1
