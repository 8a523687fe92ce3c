"""What the tools share: a mesh, its files, exact volumes, the scale between real and whole coordinates, and how a tool ends."""
from __future__ import annotations

import argparse
import contextlib
import dataclasses
import importlib.util
import io
import json
import math
import os
import re
import sys
from pathlib import Path

# Debian's packages are seen by Debian's python3 alone, which needn't be the first on the path. So the tools import numpy after this module.
DEBIAN_PYTHON = "/usr/bin/python3"
for needed in ("numpy", "meshio"):
    if importlib.util.find_spec(needed) is None:
        if os.path.exists(DEBIAN_PYTHON) and os.path.realpath(sys.executable) != os.path.realpath(DEBIAN_PYTHON):
            os.execv(DEBIAN_PYTHON, [DEBIAN_PYTHON, *sys.argv])
        sys.exit(f"{os.path.basename(sys.argv[0])}: needs {needed}, as by: apt-get install python3-{needed}")

import numpy as np

# What the program takes.
LARGEST_COORDINATE = 2**30
MOST_TETRAHEDRA = 200_000
MOST_ROUNDS = 30

# For each dimension the name of its cells in meshio and in words, and their type in MSH files.
KINDS = ("vertex", "line", "triangle", "tetra")
WORDS = ("points", "lines", "triangles", "tetrahedra")
MSH_TYPES = (15, 1, 2, 4)
# Names of some further types, for what is told of elements that are left out.
FURTHER_TYPES = {3: "quad", 5: "hexahedron", 6: "wedge", 7: "pyramid", 8: "line3", 9: "triangle6", 10: "quad9", 11: "tetra10"}

# The cell data that hold tags, by format; the first that a mesh has counts.
PHYSICAL_DATA = ("gmsh:physical", "medit:ref", "tetgen:ref", "nastran:ref", "avsucd:material", "su2:tag", "netgen:index", "cell_tags")
GEOMETRICAL_DATA = ("gmsh:geometrical",)


class Refusal(Exception):
    """What can't be done, in one line."""


class Arguments(argparse.ArgumentParser):
    """Arguments whose faults take one line, and whose help ends with an example."""

    def __init__(self, description: str, example: str):
        super().__init__(description=description, epilog=f"example:\n  {example}", formatter_class=argparse.RawDescriptionHelpFormatter)
        # `-1e-3`, `-inf` and the axis `-x` are values and no options.
        self._negative_number_matcher = re.compile(r"^-(\d+\.?\d*|\.\d+)([eE][-+]?\d+)?$|^-inf$|^-[xyz]$")

    def error(self, message: str):
        self.exit(2, f"{self.prog}: {message} (see {self.prog} --help)\n")


def run(main):
    """Runs a tool, so that whatever stops it is told in one line."""
    name = os.path.basename(sys.argv[0])
    try:
        main()
    except Refusal as refusal:
        sys.exit(f"{name}: {refusal}")
    except OSError as fault:
        sys.exit(f"{name}: {fault.filename or 'a file'}: {fault.strerror or fault}")
    except MemoryError:
        sys.exit(f"{name}: memory ran out")
    except KeyboardInterrupt:
        sys.exit(f"{name}: interrupted")
    except Exception as fault:
        if os.environ.get("MESHADAPT_TRACE"):
            raise
        sys.exit(f"{name}: {type(fault).__name__}: {one_line(fault)} (with MESHADAPT_TRACE=1 it tells where)")


def progress(text: str):
    print(f"{os.path.basename(sys.argv[0])}: {text}", file=sys.stderr, flush=True)


def check_output(given_input: str, output: str):
    """Refuses to write over what was read."""
    if os.path.exists(output) and os.path.exists(given_input) and os.path.samefile(given_input, output):
        raise Refusal(f"{output}: is read and can't be written over")


def numbers_told(numbers) -> str:
    """The first few numbers and how many more there are."""
    told = ", ".join(str(number) for number in numbers[:8])
    return told if len(numbers) <= 8 else f"{told} and {len(numbers) - 8} more"


@dataclasses.dataclass
class Cells:
    """The cells of one dimension. Corners are positions in the mesh's points from 0; further tags are those after the two of Gmsh, which tell parts."""

    corners: np.ndarray
    physical: np.ndarray
    geometrical: np.ndarray
    further: list

    def __len__(self):
        return len(self.corners)

    def parts(self) -> np.ndarray:
        """The part that owns each cell, counted from 0, and -1 where the file doesn't tell."""
        return np.array([tags[1] - 1 if len(tags) > 1 else -1 for tags in self.further], dtype=int)

    def ghosts(self) -> np.ndarray:
        """1 for each cell that another part owns and this file shows as well."""
        return np.array([int(any(tag < 0 for tag in tags[1:])) for tags in self.further], dtype=int)

    def only(self, kept: np.ndarray) -> Cells:
        """The cells that are marked true."""
        further = [tags for tags, keep in zip(self.further, kept) if keep]
        return Cells(self.corners[kept], self.physical[kept], self.geometrical[kept], further)


@dataclasses.dataclass
class Mesh:
    """Points with three coordinates, cells by dimension from 0 to 3 in the file's order, names as (dimension, number, text), and how many elements of other kinds the file has."""

    points: np.ndarray
    cells: list
    names: list
    left_out: dict

    @property
    def tetrahedra(self) -> np.ndarray:
        return self.cells[3].corners


def with_points(mesh: Mesh, kept: np.ndarray) -> Mesh:
    """The mesh with the points that are marked true alone, and with the cells on them."""
    position_of = np.cumsum(kept) - 1
    cells = [cells.only(kept[cells.corners].all(axis=1)) for cells in mesh.cells]
    for some in cells:
        some.corners = position_of[some.corners]
    return Mesh(mesh.points[kept], cells, mesh.names, mesh.left_out)


def cells_of(dimension: int, corners, physical, geometrical, further=None) -> Cells:
    count = len(corners)
    shaped = np.array(corners, dtype=np.int64).reshape(count, dimension + 1)
    tags = [np.array(values, dtype=np.int64).reshape(count) for values in (physical, geometrical)]
    return Cells(shaped, *tags, [()] * count if further is None else further)


# Files


def read_mesh(path: str) -> Mesh:
    """Reads an MSH 2.2 file in ASCII with all its tags, and by meshio whatever else meshio reads."""
    with open(path, "rb") as file:
        head = file.read(100)
    if re.match(rb"\s*\$MeshFormat\s+2(\.\d+)?\s+0\s", head):
        return read_msh(path)
    return read_by_meshio(path)


def read_msh(path: str) -> Mesh:
    """Reads an MSH 2.2 file in ASCII. meshio would lose the tags that tell parts, and one of two names that are spelled alike."""
    with open(path, encoding="utf-8", errors="surrogateescape") as file:
        lines = file.read().split("\n")
    try:
        sections = _sections(lines)
        names = []
        for line in _entries(lines, sections, "$PhysicalNames") if "$PhysicalNames" in sections else []:
            dimension, number, text = line.split(None, 2)
            names.append((int(dimension), int(number), text.strip()[1:-1]))
        nodes = [line.split() for line in _entries(lines, sections, "$Nodes")]
        points = np.array([node[1:4] for node in nodes], dtype=float).reshape(len(nodes), 3)
        position_of = {int(node[0]): position for position, node in enumerate(nodes)}
        elements = [tuple(map(int, line.split())) for line in _entries(lines, sections, "$Elements")]
        cells, left_out = _cells_of_elements(elements, position_of)
    except (ValueError, IndexError) as fault:
        raise Refusal(f"{path}: not a whole MSH 2.2 file ({one_line(fault)})") from None
    return Mesh(points, cells, names, left_out)


def _sections(lines: list) -> dict:
    """For each section's header the lines within it, from the first to the one past the last."""
    sections = {}
    position = 0
    while position < len(lines):
        header = lines[position].strip()
        position += 1
        if header.startswith("$"):
            begin = position
            while position < len(lines) and lines[position].strip() != "$End" + header[1:]:
                position += 1
            if position == len(lines):
                raise ValueError(f"{header} has no end")
            sections[header] = (begin, position)
            position += 1
    return sections


def _entries(lines: list, sections: dict, header: str) -> list:
    if header not in sections:
        raise ValueError(f"there is no {header}")
    begin, end = sections[header]
    entries = [line for line in lines[begin:end] if line.strip()]
    if not entries or len(entries) != int(entries[0]) + 1:
        raise ValueError(f"{header} has another number of lines than it says")
    return entries[1:]


def _cells_of_elements(elements: list, position_of: dict) -> tuple:
    found = [([], [], [], []) for _ in KINDS]
    left_out = {}
    for element in elements:
        if element[1] not in MSH_TYPES:
            kind = FURTHER_TYPES.get(element[1], f"type {element[1]}")
            left_out[kind] = left_out.get(kind, 0) + 1
            continue
        dimension = MSH_TYPES.index(element[1])
        tags = element[3 : 3 + element[2]] + (0, 0)[: max(0, 2 - element[2])]
        corners, physical, geometrical, further = found[dimension]
        nodes = element[3 + element[2] :]
        if len(nodes) != dimension + 1 or not all(node in position_of for node in nodes):
            raise ValueError(f"element {element[0]} has the nodes {nodes}")
        corners.append([position_of[node] for node in nodes])
        physical.append(tags[0])
        geometrical.append(tags[1])
        further.append(tags[2:])
    return [cells_of(dimension, *lists) for dimension, lists in enumerate(found)], left_out


def read_by_meshio(path: str) -> Mesh:
    import meshio

    said = io.StringIO()
    try:
        # meshio tells a fault in many ways: it prints, raises or exits.
        with contextlib.redirect_stdout(said), contextlib.redirect_stderr(said):
            read = meshio.read(path)
    except (Exception, SystemExit) as fault:
        reason = one_line(said.getvalue() if isinstance(fault, SystemExit) else f"{type(fault).__name__}: {fault}")
        hint = "; saved as MSH 2.2 it can be read, as by: gmsh IN -save -save_all -format msh2 -o OUT.msh" if path.endswith(".msh") else ""
        raise Refusal(f"{path}: meshio can't read it ({reason}){hint}") from None
    points = np.zeros((len(read.points), 3))
    points[:, : read.points.shape[1]] = read.points
    names = [(int(value[1]), int(value[0]), name) for name, value in read.field_data.items() if np.shape(value) == (2,)]
    found = [[], [], [], []]
    left_out = {}
    for block_number, block in enumerate(read.cells):
        if block.type not in KINDS:
            left_out[block.type] = left_out.get(block.type, 0) + len(block)
            continue
        physical = _tags(read, PHYSICAL_DATA, block_number)
        found[KINDS.index(block.type)].append((block.data, physical, _tags(read, GEOMETRICAL_DATA, block_number), _part_tags(read, block_number)))
        # A cell of Gmsh may be in several physical groups, of which meshio takes the first as the tag.
        for name, members in read.cell_sets.items():
            number = read.field_data.get(name, (None,))[0]
            if number is None or members[block_number] is None or not len(members[block_number]) or physical[0] == number:
                continue
            if block.type == "tetra":
                raise Refusal(f"{path}: tetrahedra are in two physical groups, {physical[0]} and {number}; a region has one")
            found[KINDS.index(block.type)].append((block.data, np.full(len(block), number), _tags(read, GEOMETRICAL_DATA, block_number), [()] * len(block)))
    return Mesh(points, [_joined(dimension, pieces) for dimension, pieces in enumerate(found)], names, left_out)


def _tags(read, names: tuple, block_number: int) -> np.ndarray:
    for name in names:
        if name in read.cell_data:
            return np.asarray(read.cell_data[name][block_number]).astype(np.int64)
    return np.zeros(len(read.cells[block_number]), dtype=np.int64)


def _part_tags(read, block_number: int) -> list:
    """The tags after those of Gmsh, from the cell data that `from_whole.py` writes."""
    if "part" not in read.cell_data:
        return [()] * len(read.cells[block_number])
    parts = np.asarray(read.cell_data["part"][block_number]).astype(int)
    ghosts = np.asarray(read.cell_data["ghost"][block_number]).astype(int) if "ghost" in read.cell_data else 0 * parts
    return [() if part < 0 else (2, part + 1, -1) if ghost else (1, part + 1) for part, ghost in zip(parts, ghosts)]


def _joined(dimension: int, pieces: list) -> Cells:
    if not pieces:
        return cells_of(dimension, [], [], [])
    corners, physical, geometrical, further = zip(*pieces)
    return cells_of(dimension, np.concatenate(corners), np.concatenate(physical), np.concatenate(geometrical), [tags for piece in further for tags in piece])


def one_line(text) -> str:
    return " ".join(str(text).split())[:200] or type(text).__name__


def write_msh(path: str, mesh: Mesh, spell):
    """Writes an MSH 2.2 file in ASCII; `spell` gives a coordinate's text."""
    out = ["$MeshFormat", "2.2 0 8", "$EndMeshFormat"]
    if mesh.names:
        out += ["$PhysicalNames", str(len(mesh.names))]
        out += [f'{dimension} {number} "{text}"' for dimension, number, text in sorted(mesh.names)]
        out += ["$EndPhysicalNames"]
    out += ["$Nodes", str(len(mesh.points))]
    out += [f"{i} {spell(x)} {spell(y)} {spell(z)}" for i, (x, y, z) in enumerate(mesh.points.tolist(), 1)]
    out += ["$EndNodes", "$Elements", str(sum(len(cells) for cells in mesh.cells))]
    number = 0
    for cells, kind in zip(mesh.cells, MSH_TYPES):
        for corners, physical, geometrical, further in zip((cells.corners + 1).tolist(), cells.physical, cells.geometrical, cells.further):
            number += 1
            words = (number, kind, 2 + len(further), physical, geometrical, *further, *corners)
            out.append(" ".join(map(str, words)))
    out += ["$EndElements", ""]
    with open(path, "w", encoding="utf-8", errors="surrogateescape") as file:
        file.write("\n".join(out))


# Exact geometry


def six_volumes(points: np.ndarray, tetrahedra: np.ndarray) -> np.ndarray:
    """Six times the signed volume of each tetrahedron. Coordinates are whole; the answers are Python's integers, since 64 bits don't hold them."""
    whole = points.astype(np.int64).astype(object)
    first = whole[tetrahedra[:, 0]]
    u, v, w = (whole[tetrahedra[:, i]] - first for i in (1, 2, 3))
    return determinants(u, v, w)


def determinants(u, v, w):
    return u[:, 0] * (v[:, 1] * w[:, 2] - v[:, 2] * w[:, 1]) + u[:, 1] * (v[:, 2] * w[:, 0] - v[:, 0] * w[:, 2]) + u[:, 2] * (v[:, 0] * w[:, 1] - v[:, 1] * w[:, 0])


def edge_lengths(points: np.ndarray, tetrahedra: np.ndarray) -> np.ndarray:
    """The lengths of the six edges of each tetrahedron."""
    pairs = ((0, 1), (0, 2), (0, 3), (1, 2), (1, 3), (2, 3))
    return np.stack([np.linalg.norm(points[tetrahedra[:, j]] - points[tetrahedra[:, i]], axis=1) for i, j in pairs], axis=1)


# The scale


@dataclasses.dataclass
class Scale:
    """A whole coordinate w stands for origin + unit * w in real units. The mesh before the first round has multiples of 2^grid."""

    unit: float
    origin: list
    grid: int

    @property
    def spacing(self) -> float:
        """The distance of grid points before the first round, in real units."""
        return self.unit * 2**self.grid

    def to_real(self, points: np.ndarray) -> np.ndarray:
        return np.array(self.origin) + self.unit * points


def scale_path(mesh_path: str) -> str:
    """Where the scale of a whole mesh is stored: `part.scale.json` beside `part.msh`."""
    return str(Path(mesh_path).with_suffix(".scale.json"))


def write_scale(path: str, scale: Scale):
    with open(path, "w", encoding="utf-8") as file:
        json.dump({"unit": scale.unit, "origin": scale.origin, "grid": scale.grid, "meaning": "real = origin + unit * whole"}, file, indent=2)
        file.write("\n")


def read_scale(path: str) -> Scale:
    try:
        with open(path, encoding="utf-8") as file:
            read = json.load(file)
        scale = Scale(float(read["unit"]), [float(c) for c in read["origin"]], int(read["grid"]))
    except (ValueError, KeyError, TypeError) as fault:
        raise Refusal(f"{path}: not a scale file ({one_line(fault)})") from None
    if not (scale.unit > 0 and len(scale.origin) == 3 and all(map(math.isfinite, [scale.unit, *scale.origin]))):
        raise Refusal(f"{path}: not a scale file (unit {scale.unit}, origin {scale.origin})")
    return scale
