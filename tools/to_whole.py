#!/usr/bin/env python3
"""Scales, shifts and rounds a mesh to whole coordinates, in the MSH 2.2 profile that meshadapt reads."""
from __future__ import annotations

import dataclasses
import itertools
import math
from fractions import Fraction

from common import Arguments, check_output, determinants, edge_lengths, LARGEST_COORDINATE, Mesh, MOST_ROUNDS, MOST_TETRAHEDRA, numbers_told, progress, read_mesh, Refusal, run, Scale, scale_path, six_volumes, with_points, WORDS, write_msh, write_scale

import numpy as np

DESCRIPTION = """Scales, shifts and rounds the mesh IN, in any format that meshio reads, to whole
coordinates, and stores it as OUT in the MSH 2.2 profile that meshadapt reads, and
the scale beside it (OUT.scale.json). Coordinates become multiples of 2^N for N
rounds, since each round of refinement takes midpoints and so halves the grid. The
spacing of the grid is a power of two, as fine as the largest coordinate 2^30
allows, or what is given. Refused is what rounding would break: nodes that fall
together, and tetrahedra that become flat or turn over. Nodes and tetrahedra are told
by their numbers in IN's order, from 1; tetrahedra keep their order in OUT."""


def arguments():
    parser = Arguments(DESCRIPTION, "tools/to_whole.py part.msh whole.msh --rounds 3")
    parser.add_argument("input", metavar="IN", help="a mesh with tetrahedra, with triangles, lines and points by Gmsh's tags where it has some")
    parser.add_argument("output", metavar="OUT.msh", help="the mesh in whole coordinates")
    grid = parser.add_mutually_exclusive_group()
    grid.add_argument("--rounds", type=int, metavar="N", help="how many rounds are to be run at most, 0 to 30 (default 8)")
    grid.add_argument("--grid", type=int, metavar="K", help="the same as a power of two: coordinates are multiples of 2^K")
    parser.add_argument("--spacing", type=float, metavar="S", help="the distance of grid points in real units (default: the finest)")
    given = parser.parse_args()
    if given.grid is None:
        given.grid = 8 if given.rounds is None else given.rounds
    if not 0 <= given.grid <= MOST_ROUNDS:
        parser.error(f"rounds are 0 to {MOST_ROUNDS}, and so is the grid")
    if given.spacing is not None and not 0 < given.spacing < math.inf:
        parser.error("the spacing is a number above 0")
    if not given.output.endswith(".msh"):
        parser.error("OUT ends with .msh")
    return given


# What the input has


def tetrahedra_with_their_nodes(mesh: Mesh) -> tuple:
    """The mesh without nodes of no tetrahedron and without what stands on them, the nodes' numbers in the file, and what was left out in words."""
    used = np.zeros(len(mesh.points), dtype=bool)
    used[mesh.tetrahedra.ravel()] = True
    kept = with_points(mesh, used)
    told = [f"{count} {kind}" for kind, count in mesh.left_out.items()]
    if not used.all():
        told.append(f"{np.count_nonzero(~used)} nodes of no tetrahedron")
    for word, before, after in zip(WORDS, mesh.cells, kept.cells):
        if len(after) < len(before):
            told.append(f"{len(before) - len(after)} {word} on such nodes")
        # What tells parts is of the run that wrote the file.
        after.further = [()] * len(after)
    return kept, np.flatnonzero(used) + 1, told


def check_input(path: str, mesh: Mesh):
    """Refuses what no scale would mend."""
    count = len(mesh.tetrahedra)
    if count == 0:
        curved = [kind for kind in mesh.left_out if kind.startswith("tetra")]
        raise Refusal(f"{path}: no tetrahedra of four nodes" + (f", but {mesh.left_out[curved[0]]} {curved[0]}; mesh with order 1" if curved else ""))
    if count > MOST_TETRAHEDRA:
        raise Refusal(f"{path}: {count} tetrahedra; meshadapt takes {MOST_TETRAHEDRA} at most")
    if not np.isfinite(mesh.points).all():
        raise Refusal(f"{path}: coordinates that are no numbers")
    tags = np.concatenate([values for cells in mesh.cells for values in (cells.physical, cells.geometrical)])
    if np.abs(tags).max() >= 2**31:
        raise Refusal(f"{path}: a tag is past 32 bits: {tags[np.abs(tags).argmax()]}")
    listed = np.sort(mesh.tetrahedra, axis=1)
    pair = first_equal(listed)
    if pair is not None:
        raise Refusal(f"{path}: tetrahedra {pair[0] + 1} and {pair[1] + 1} have the same nodes; is a volume in two physical groups?")


def first_equal(rows: np.ndarray):
    """The positions of two rows that are equal, the least ones."""
    order = np.lexsort(rows.T[::-1])
    same = np.flatnonzero((rows[order[1:]] == rows[order[:-1]]).all(axis=1))
    pairs = [tuple(sorted((int(order[i]), int(order[i + 1])))) for i in same]
    return min(pairs) if pairs else None


def loose(mesh: Mesh, dimension: int) -> int:
    """How many lines or triangles are no edges or faces of tetrahedra."""
    count = len(mesh.points)
    # Up to four nodes for each tetrahedron keep these numbers within 63 bits.
    weights = np.array([count**i for i in range(dimension + 1)], dtype=np.int64)
    choices = itertools.combinations(range(4), dimension + 1)
    held = np.concatenate([np.sort(mesh.tetrahedra[:, corners], axis=1) @ weights for corners in choices])
    return int(np.count_nonzero(~np.isin(np.sort(mesh.cells[dimension].corners, axis=1) @ weights, held)))


def signs_of(points: np.ndarray, tetrahedra: np.ndarray) -> np.ndarray:
    """The exact sign of each tetrahedron's volume: by floating point where that is sure, and else by fractions."""
    first = points[tetrahedra[:, 0]]
    sides = [points[tetrahedra[:, i]] - first for i in (1, 2, 3)]
    volumes = determinants(*sides)
    sure = 1e-10 * np.prod([np.abs(side).max(axis=1) for side in sides], axis=0)
    # Where a mesh lies far from 0 its sides are rounded as well.
    sure += 1e-14 * np.abs(points).max() * np.square(np.max([np.abs(side).max(axis=1) for side in sides], axis=0))
    signs = np.sign(volumes).astype(int)
    for i in np.flatnonzero(np.abs(volumes) <= sure):
        corners = [np.array([Fraction(c) for c in points[node].tolist()], dtype=object) for node in tetrahedra[i]]
        exact = determinants(*((corner - corners[0])[None] for corner in corners[1:]))[0]
        signs[i] = (exact > 0) - (exact < 0)
    return signs


# The grid


def placed(points: np.ndarray, spacing: float) -> tuple:
    """The grid points that the nodes come to, counted from the origin, which is a multiple of the spacing at the mesh's low corner."""
    origin = np.floor(points.min(axis=0) / spacing) * spacing
    return origin, np.rint((points - origin) / spacing)


def fits(points: np.ndarray, spacing: float, grid: int) -> bool:
    return placed(points, spacing)[1].max() * 2**grid <= LARGEST_COORDINATE


def finest_spacing(points: np.ndarray, grid: int) -> float:
    """The least power of two for which the largest coordinate is small enough."""
    longest = (points.max(axis=0) - points.min(axis=0)).max()
    spacing = 2.0 ** (math.floor(math.log2(longest)) - (MOST_ROUNDS - grid)) if longest > 0 else 1.0
    while not fits(points, spacing, grid):
        spacing *= 2
    return spacing


@dataclasses.dataclass
class Broken:
    """What rounding breaks: two nodes that fall together, and tetrahedra that become flat or turn over, by positions."""

    together: tuple | None
    flat: list
    turned: list

    def __bool__(self):
        return bool(self.together or self.flat or self.turned)

    def told(self, numbers: np.ndarray) -> str:
        told = []
        if self.together:
            told.append(f"nodes {numbers[self.together[0]]} and {numbers[self.together[1]]} fall together")
        for positions, what in ((self.flat, "become flat"), (self.turned, "turn over")):
            if positions:
                told.append(f"tetrahedra {numbers_told([i + 1 for i in positions])} {what}")
        return "; ".join(told)


def broken_by(mesh: Mesh, signs: np.ndarray, spacing: float) -> Broken:
    steps = placed(mesh.points, spacing)[1]
    after = np.sign(six_volumes(steps, mesh.tetrahedra)).astype(int)
    return Broken(first_equal(steps), np.flatnonzero(after == 0).tolist(), np.flatnonzero(after * signs < 0).tolist())


def way_out(mesh: Mesh, signs: np.ndarray, spacing: float, grid: int) -> str:
    """The coarsest halving of the spacing that breaks nothing, or the most rounds for which some spacing breaks nothing."""
    progress("looking for a spacing that would do")
    finer = spacing / 2
    while fits(mesh.points, finer, grid):
        if not broken_by(mesh, signs, finer):
            return f"--spacing {finer!r} would do"
        finer /= 2
    for fewer in range(grid - 1, -1, -1):
        if not broken_by(mesh, signs, finest_spacing(mesh.points, fewer)):
            return f"no spacing would do for {grid} rounds; --rounds {fewer} would"
    return "no spacing would do"


def main():
    given = arguments()
    check_output(given.input, given.output)
    progress(f"reading {given.input}")
    read = read_mesh(given.input)
    check_input(given.input, read)
    mesh, numbers, left_out = tetrahedra_with_their_nodes(read)
    pair = first_equal(mesh.points)
    if pair is not None:
        raise Refusal(f"{given.input}: nodes {numbers[pair[0]]} and {numbers[pair[1]]} are at one place; merge them first")
    signs = signs_of(mesh.points, mesh.tetrahedra)
    if not signs.all():
        raise Refusal(f"{given.input}: tetrahedra {numbers_told((np.flatnonzero(signs == 0) + 1).tolist())} are flat")

    spacing = finest_spacing(mesh.points, given.grid) if given.spacing is None else given.spacing
    if not fits(mesh.points, spacing, given.grid):
        raise Refusal(f"--spacing {spacing!r} is too fine: coordinates would be past {LARGEST_COORDINATE}; for {given.grid} rounds the finest is {finest_spacing(mesh.points, given.grid)!r}")
    progress(f"rounding {len(mesh.tetrahedra)} tetrahedra")
    broken = broken_by(mesh, signs, spacing)
    if broken:
        raise Refusal(f"{given.input}: rounded to {spacing!r}, {broken.told(numbers)}; {way_out(mesh, signs, spacing, given.grid)}")

    origin, steps = placed(mesh.points, spacing)
    scale = Scale(spacing / 2**given.grid, origin.tolist(), given.grid)
    spelled = [name for name in mesh.names if 0 <= name[0] <= 3 and not set('"\n\r') & set(name[2])]
    if len(spelled) < len(mesh.names):
        left_out.append(f"{len(mesh.names) - len(spelled)} names with a quotation mark or of another dimension")
    mesh.names = spelled
    lengths = edge_lengths(mesh.points, mesh.tetrahedra)
    move = np.linalg.norm(origin + steps * spacing - mesh.points, axis=1).max()
    mesh.points = steps * 2**given.grid
    write_msh(given.output, mesh, lambda coordinate: str(int(coordinate)))
    write_scale(scale_path(given.output), scale)

    counts = ", ".join(f"{len(cells)} {word}" for word, cells in zip(WORDS[::-1], mesh.cells[::-1]) if len(cells))
    print(f"stored: {given.output} and {scale_path(given.output)}: {counts}, {len(mesh.points)} nodes, {len(mesh.names)} names")
    print("left out: " + (", ".join(left_out) or "nothing"))
    for word, cells in zip(WORDS[:3], mesh.cells):
        without = np.count_nonzero((cells.physical == 0) & (cells.geometrical == 0))
        if without:
            print(f"without tags: {without} {word}, which meshadapt doesn't write")
    for dimension in (1, 2):
        if loose(mesh, dimension):
            print(f"loose: {loose(mesh, dimension)} {WORDS[dimension]} that are no {('edges', 'faces')[dimension - 1]} of tetrahedra, which meshadapt drops")
    print(f"scale: a whole unit is {scale.unit!r}, the grid {spacing!r}, the largest coordinate {int(mesh.points.max())}")
    print(f"edges: {lengths.min():.6g} to {lengths.max():.6g}, in whole units {lengths.min() / scale.unit:.0f} to {lengths.max() / scale.unit:.0f}")
    print(f"rounding: no node merged, no tetrahedron flat or turned over, largest move {move:.3g}")


if __name__ == "__main__":
    run(main)
