#!/usr/bin/env python3
"""Cuts a mesh into parts by METIS."""
from __future__ import annotations

import os
import shutil
import subprocess
import tempfile

from common import Arguments, progress, read_mesh, Refusal, run

import numpy as np

DESCRIPTION = """Cuts a mesh into P parts by METIS's program mpmetis, over the tetrahedra that share
faces, and writes the partition file of meshadapt: one part number from 0 to P-1 a
line, one line for each tetrahedron in the mesh file's order."""

MOST_PARTS = 64


def arguments():
    parser = Arguments(DESCRIPTION, "tools/part.py whole.msh 4 whole.part")
    parser.add_argument("input", metavar="IN.msh", help="the mesh that meshadapt is to read")
    parser.add_argument("parts", metavar="P", type=int, help=f"how many parts, 1 to {MOST_PARTS}")
    parser.add_argument("output", metavar="OUT", help="the partition file")
    given = parser.parse_args()
    if not 1 <= given.parts <= MOST_PARTS:
        parser.error(f"parts are 1 to {MOST_PARTS}")
    return given


def partition(tetrahedra: np.ndarray, parts: int) -> np.ndarray:
    """METIS's part numbers. It counts nodes without gaps, from 1."""
    if parts == 1:
        return np.zeros(len(tetrahedra), dtype=int)
    program = shutil.which("mpmetis")
    if program is None:
        raise Refusal("there is no mpmetis, the program of METIS: apt-get install metis")
    numbers = np.unique(tetrahedra, return_inverse=True)[1].reshape(tetrahedra.shape) + 1
    with tempfile.TemporaryDirectory() as folder:
        mesh_file = os.path.join(folder, "mesh")
        np.savetxt(mesh_file, numbers, fmt="%d", header=str(len(numbers)), comments="")
        ended = subprocess.run([program, "-gtype=dual", "-ncommon=3", mesh_file, str(parts)], capture_output=True, text=True)
        stored = f"{mesh_file}.epart.{parts}"
        # mpmetis may end with 0 where it failed.
        if not os.path.exists(stored):
            raise Refusal(f"mpmetis failed: {' '.join((ended.stderr or ended.stdout).split())[-200:]}")
        return np.loadtxt(stored, dtype=int, ndmin=1)


def main():
    given = arguments()
    progress(f"reading {given.input}")
    tetrahedra = read_mesh(given.input).tetrahedra
    if len(tetrahedra) < given.parts:
        raise Refusal(f"{given.input}: {len(tetrahedra)} tetrahedra for {given.parts} parts")
    progress(f"cutting {len(tetrahedra)} tetrahedra into {given.parts} parts")
    labels = partition(tetrahedra, given.parts)
    if len(labels) != len(tetrahedra):
        raise Refusal(f"mpmetis gave {len(labels)} lines for {len(tetrahedra)} tetrahedra")
    np.savetxt(given.output, labels, fmt="%d")
    counts = np.bincount(labels, minlength=given.parts)
    print(f"stored: {given.output}: {given.parts} parts of {counts.min()} to {counts.max()} tetrahedra")


if __name__ == "__main__":
    run(main)
