#!/usr/bin/env python3
"""Draws a mesh, or what is left of it behind a cut, as a PNG."""
from __future__ import annotations

import importlib.util
import math
import re

from common import Arguments, determinants, edge_lengths, Mesh, progress, read_mesh, Refusal, run

import numpy as np

DESCRIPTION = """Draws the surface of a mesh as a PNG, with the edges of its tetrahedra, coloured by their
quality, region or part. Quality is six times the volume over the cube of the longest
edge; a regular tetrahedron has 0.707. A cut takes away the tetrahedra whose centre is
past it, so that those within are seen whole. MESH is in any format that meshio reads."""

# Each pixel is the mean of so many by so many.
FINER = 2
BACKGROUND = 1.0
REGULAR = math.sqrt(0.5)


def arguments():
    parser = Arguments(DESCRIPTION, "tools/picture.py adapted.vtu adapted.png --cut -y 0.5 --colour quality")
    parser.add_argument("input", metavar="MESH")
    parser.add_argument("output", metavar="OUT.png")
    parser.add_argument("--colour", choices=("quality", "region", "part"), default="quality", help="what the colour tells (default: quality)")
    parser.add_argument("--cut", nargs=2, metavar=("AXIS", "AT"), help="take away what is past AT on the axis x, y or z, or below AT on -x, -y or -z")
    parser.add_argument("--view", nargs=2, type=float, default=(-60.0, 25.0), metavar=("AZIMUTH", "ELEVATION"), help="where it is seen from, in degrees (default: -60 25)")
    parser.add_argument("--size", nargs=2, type=int, default=(800, 640), metavar=("WIDTH", "HEIGHT"), help="in pixels (default: 800 640)")
    parser.add_argument("--title", default="", help="a line above the picture")
    given = parser.parse_args()
    if given.cut:
        axis, at = given.cut
        if axis.lstrip("-") not in ("x", "y", "z") or not re.fullmatch(r"-?(\d+\.?\d*|\.\d+)([eE][-+]?\d+)?", at):
            parser.error("a cut is an axis, as x or -x, and a number")
        given.cut = ("xyz".index(axis[-1]), -1 if axis[0] == "-" else 1, float(at))
    if not all(100 <= side <= 4000 for side in given.size):
        parser.error("width and height are 100 to 4000")
    if not given.output.endswith(".png"):
        parser.error("OUT ends with .png")
    return given


def outer_faces(tetrahedra: np.ndarray, kept: np.ndarray) -> tuple:
    """The faces that one kept tetrahedron has and no other, with that tetrahedron and its fourth corner."""
    opposite = np.repeat([0, 1, 2, 3], len(kept))
    owner = np.tile(kept, 4)
    faces = np.concatenate([np.delete(tetrahedra[kept], i, axis=1) for i in range(4)])
    ordered = np.sort(faces, axis=1)
    _, first, count = np.unique(ordered, axis=0, return_index=True, return_counts=True)
    outer = first[count == 1]
    return faces[outer], owner[outer], tetrahedra[owner[outer], opposite[outer]]


def qualities(points: np.ndarray, tetrahedra: np.ndarray) -> np.ndarray:
    first = points[tetrahedra[:, 0]]
    volumes = determinants(*(points[tetrahedra[:, i]] - first for i in (1, 2, 3)))
    return np.abs(volumes) / edge_lengths(points, tetrahedra).max(axis=1) ** 3


# Drawing


def axes_of_view(azimuth: float, elevation: float) -> np.ndarray:
    """To the right, upwards, and towards the eye."""
    a, e = math.radians(azimuth), math.radians(elevation)
    towards = [math.cos(e) * math.cos(a), math.cos(e) * math.sin(a), math.sin(e)]
    right = [-math.sin(a), math.cos(a), 0.0]
    return np.array([right, np.cross(towards, right), towards])


def drawn(points: np.ndarray, faces: np.ndarray, fourth: np.ndarray, colours: np.ndarray, view: np.ndarray, width: int, height: int) -> np.ndarray:
    """The picture as height x width x 3: for each pixel the face that is nearest to the eye, with its edges."""
    seen = points @ view.T
    low, high = seen[np.unique(faces)].min(axis=0), seen[np.unique(faces)].max(axis=0)
    scale = 0.94 * min(width / max(high[0] - low[0], 1e-300), height / max(high[1] - low[1], 1e-300))
    middle = (low + high) / 2
    flat = np.column_stack([width / 2 + scale * (seen[:, 0] - middle[0]), height / 2 - scale * (seen[:, 1] - middle[1]), scale * seen[:, 2]])
    normals = np.cross(points[faces[:, 1]] - points[faces[:, 0]], points[faces[:, 2]] - points[faces[:, 0]])
    normals *= np.sign(np.sum(normals * (points[faces[:, 0]] - points[fourth]), axis=1))[:, None]
    normals /= np.maximum(np.linalg.norm(normals, axis=1), 1e-300)[:, None]
    light = view.T @ np.array([-0.35, 0.55, 0.76])
    shaded = colours * (0.62 + 0.38 * np.clip(normals @ light, 0, 1))[:, None]

    picture = np.full((height, width, 3), BACKGROUND)
    nearest = np.full((height, width), -np.inf)
    # Of a face that looks away nothing is seen.
    towards = np.flatnonzero(normals @ view[2] > 1e-9)
    for count, face in enumerate(towards):
        if count and count % 20_000 == 0:
            progress(f"{count} of {len(towards)} faces drawn")
        draw_face(picture, nearest, flat[faces[face]], shaded[face])
    return picture


def draw_face(picture: np.ndarray, nearest: np.ndarray, corners: np.ndarray, colour: np.ndarray):
    height, width = nearest.shape
    left, top = np.maximum(np.floor(corners[:, :2].min(axis=0)).astype(int), 0)
    right, bottom = np.minimum(np.ceil(corners[:, :2].max(axis=0)).astype(int) + 1, (width, height))
    if left >= right or top >= bottom:
        return
    x, y = np.arange(left, right) + 0.5, (np.arange(top, bottom) + 0.5)[:, None]
    (ax, ay, az), (bx, by, bz), (cx, cy, cz) = corners
    twice_area = (bx - ax) * (cy - ay) - (cx - ax) * (by - ay)
    if abs(twice_area) < 1e-12:
        return
    # How far a pixel is from each side, in parts of the height over it.
    over_a = ((bx - x) * (cy - y) - (cx - x) * (by - y)) / twice_area
    over_b = ((cx - x) * (ay - y) - (ax - x) * (cy - y)) / twice_area
    over_c = 1 - over_a - over_b
    depth = over_a * az + over_b * bz + over_c * cz
    window = (slice(top, bottom), slice(left, right))
    shown = (np.minimum(np.minimum(over_a, over_b), over_c) >= 0) & (depth > nearest[window])
    if not shown.any():
        return
    heights = [abs(twice_area) / max(math.hypot(px - qx, py - qy), 1e-12) for px, py, qx, qy in ((bx, by, cx, cy), (cx, cy, ax, ay), (ax, ay, bx, by))]
    to_side = np.minimum(np.minimum(over_a * heights[0], over_b * heights[1]), over_c * heights[2])
    edge = (to_side < min(0.6 * FINER, 0.09 * min(heights)))[shown]
    nearest[window][shown] = depth[shown]
    picture[window][shown] = np.where(edge[:, None], 0.3 * colour, colour)


def smaller(picture: np.ndarray) -> np.ndarray:
    height, width, _ = picture.shape
    return picture.reshape(height // FINER, FINER, width // FINER, FINER, 3).mean(axis=(1, 3))


# Colours and what they mean


def region_names(mesh: Mesh) -> tuple:
    """For each tetrahedron the number of its region among all, and the regions' names."""
    tags = np.column_stack([mesh.cells[3].physical, mesh.cells[3].geometrical])
    # Gmsh's physical groups are what a user named; without them entities are told apart.
    key = tags[:, :1] if tags[:, 0].any() else tags[:, 1:]
    found, position = np.unique(key[:, 0], return_inverse=True)
    named = {number: text for dimension, number, text in mesh.names if dimension == 3}
    return position, [named.get(number, f"region {number}") for number in found.tolist()]


def part_names(mesh: Mesh) -> tuple:
    found, position = np.unique(mesh.cells[3].parts(), return_inverse=True)
    if found[0] < 0:
        raise Refusal("the mesh doesn't tell parts; part files of meshadapt do")
    return position, [f"part {part}" for part in found.tolist()]


def stored(path: str, picture: np.ndarray, title: str, named: tuple | None):
    """Stores the picture with its title and what the colours mean."""
    import matplotlib

    matplotlib.use("Agg")
    from matplotlib import cm, colors, patches, pyplot

    height, width, _ = picture.shape
    figure = pyplot.figure(figsize=(width / 100, height / 100), dpi=100)
    figure.figimage(np.clip(picture, 0, 1), zorder=-1)
    if title:
        figure.text(0.5, 0.985, title, ha="center", va="top", fontsize=12)
    if named is None:
        bar = figure.add_axes((0.3, 0.085, 0.4, 0.018))
        figure.colorbar(cm.ScalarMappable(colors.Normalize(0, REGULAR), "viridis"), cax=bar, orientation="horizontal", label="quality of tetrahedra")
    else:
        names, palette = named
        entries = [patches.Patch(color=palette[i], label=name) for i, name in enumerate(names[:12])]
        figure.legend(handles=entries, loc="lower center", ncol=min(6, len(entries)), frameon=False)
    figure.savefig(path, dpi=100, pil_kwargs={"optimize": True})


def main():
    given = arguments()
    progress(f"reading {given.input}")
    mesh = read_mesh(given.input)
    if importlib.util.find_spec("matplotlib") is None:
        raise Refusal("needs matplotlib, as by: apt-get install python3-matplotlib")
    import matplotlib

    tetrahedra = mesh.tetrahedra
    kept = np.ones(len(tetrahedra), dtype=bool)
    if given.cut:
        axis, sign, at = given.cut
        kept = sign * (mesh.points[tetrahedra, axis].mean(axis=1) - at) <= 0
    if not kept.any():
        raise Refusal(f"{given.input}: no tetrahedra to be seen")
    named = None
    if given.colour == "quality":
        of_tetrahedra = matplotlib.colormaps["viridis"](qualities(mesh.points, tetrahedra) / REGULAR)[:, :3]
    else:
        position, names = region_names(mesh) if given.colour == "region" else part_names(mesh)
        palette = matplotlib.colormaps["Set2" if len(names) <= 8 else "tab20"].colors
        palette = np.array([palette[i % len(palette)] for i in range(len(names))])
        of_tetrahedra = palette[position]
        named = (names, palette)
    faces, owner, fourth = outer_faces(tetrahedra, np.flatnonzero(kept))
    progress(f"drawing {len(faces)} faces")
    width, height = given.size
    # The lowest tenth is left to what the colours mean, and a strip on top to the title.
    top, bottom = (height // 16 if given.title else 0), height // 8
    drawing = smaller(drawn(mesh.points, faces, fourth, of_tetrahedra[owner], axes_of_view(*given.view), FINER * width, FINER * (height - top - bottom)))
    picture = np.full((height, width, 3), BACKGROUND)
    picture[top : height - bottom] = drawing
    stored(given.output, picture, given.title, named)
    print(f"stored: {given.output}: {len(faces)} faces of {np.count_nonzero(kept)} tetrahedra")


if __name__ == "__main__":
    run(main)
