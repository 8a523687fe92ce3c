#!/usr/bin/env python3
"""Takes a mesh that meshadapt stored back to real units, in any format that meshio writes."""
from __future__ import annotations

import contextlib
import io
import os

from common import Arguments, cells_of, check_output, KINDS, Mesh, one_line, progress, read_mesh, read_scale, Refusal, run, scale_path, with_points, WORDS, write_msh

import numpy as np

DESCRIPTION = """Takes the mesh X.msh, which meshadapt stored, back to real units and writes it in the
format that OUT's ending tells: .vtu and .xdmf for ParaView, .msh for Gmsh, or any other
that meshio writes. Tags are cell data by the names gmsh:physical and gmsh:geometrical;
in a part's file, part is the number of the part that owns a cell, from 0, and ghost is
1 where that is another part than the file's."""


def arguments():
    parser = Arguments(DESCRIPTION, "tools/from_whole.py adapted.msh adapted.vtu --scale whole.scale.json")
    parser.add_argument("input", metavar="X.msh", help="a mesh in whole coordinates")
    parser.add_argument("output", metavar="OUT", help="the mesh in real units")
    parser.add_argument("--scale", metavar="FILE", help="the scale that to_whole.py stored (default: X.scale.json)")
    parser.add_argument("--only", choices=WORDS, help="write the cells of one dimension alone, as some formats want it")
    parser.add_argument("--msh", choices=("2.2", "4.1"), help="which version of Gmsh's format a .msh file has (default: 4.1 where that can hold all tags and names)")
    return parser.parse_args()


def blocks_of(mesh: Mesh) -> list:
    """The cells as meshio's blocks, as (dimension, tag of the entity, cells): one for each entity, as MSH 4.1 wants it."""
    blocks = []
    for dimension, cells in enumerate(mesh.cells):
        for entity in np.unique(cells.geometrical):
            blocks.append((dimension, int(entity), cells.only(cells.geometrical == entity)))
    return blocks


def entities_of_points(mesh: Mesh, blocks: list) -> np.ndarray:
    """For each point the entity of the least dimension that holds it."""
    entities = np.full((len(mesh.points), 2), (3, 1))
    for dimension, entity, cells in reversed(blocks):
        entities[cells.corners.ravel()] = (dimension, entity)
    return entities


def lost_in_msh41(mesh: Mesh, blocks: list) -> str | None:
    """What MSH 4.1 as meshio writes it would lose."""
    if any(tags for cells in mesh.cells for tags in cells.further):
        return "the tags that tell parts"
    entities = set(map(tuple, entities_of_points(mesh, blocks).tolist()))
    for dimension, entity, cells in blocks:
        told = f"the {WORDS[dimension]} of entity {entity}"
        if entity < 1:
            return f"{told}, whose tag isn't above 0"
        if len(np.unique(cells.physical)) > 1:
            return f"{told}, which are in several physical groups"
        if (dimension, entity) not in entities:
            return f"{told}, which have no point of their own"
    if len({text for _, _, text in mesh.names}) < len(mesh.names):
        return "one of two names that are spelled alike"
    return None


def write_by_meshio(path: str, mesh: Mesh, blocks: list):
    import meshio

    if path.endswith(".msh"):
        pieces = [(dimension, cells) for dimension, _, cells in blocks]
    else:
        pieces = [(dimension, cells) for dimension, cells in enumerate(mesh.cells) if len(cells)]
    data = {"gmsh:physical": [cells.physical for _, cells in pieces], "gmsh:geometrical": [cells.geometrical for _, cells in pieces]}
    if any(tags for cells in mesh.cells for tags in cells.further):
        data["part"] = [cells.parts() for _, cells in pieces]
        data["ghost"] = [cells.ghosts() for _, cells in pieces]
    written = meshio.Mesh(mesh.points, [(KINDS[dimension], cells.corners) for dimension, cells in pieces], cell_data=data)
    options = {}
    if path.endswith(".msh"):
        written.field_data = {text: np.array([number, dimension]) for dimension, number, text in mesh.names}
        written.point_data["gmsh:dim_tags"] = entities_of_points(mesh, blocks)
        options["file_format"] = "gmsh"
    said = io.StringIO()
    try:
        with contextlib.redirect_stdout(said), contextlib.redirect_stderr(said):
            written.write(path, **options)
    except ImportError as fault:
        raise Refusal(f"{path}: meshio needs {fault.name} for it, as by: apt-get install python3-{fault.name}") from None
    except OSError:
        raise
    except (Exception, SystemExit) as fault:
        raise Refusal(f"{path}: meshio can't write it ({one_line(str(fault) or said.getvalue())})") from None
    if said.getvalue().strip():
        progress(f"meshio: {one_line(said.getvalue())}")


def main():
    given = arguments()
    check_output(given.input, given.output)
    path = scale_path(given.input) if given.scale is None else given.scale
    if given.scale is None and not os.path.exists(path):
        raise Refusal(f"there is no {path}: name the scale that to_whole.py stored, as by --scale whole.scale.json")
    scale = read_scale(path)
    progress(f"reading {given.input}")
    mesh = read_mesh(given.input)
    if not (mesh.points == np.rint(mesh.points)).all():
        raise Refusal(f"{given.input}: coordinates aren't whole, so this is no mesh of meshadapt")
    mesh.points = scale.to_real(mesh.points)
    if given.only:
        mesh.cells = [cells if word == given.only else cells_of(dimension, [], [], []) for dimension, (word, cells) in enumerate(zip(WORDS, mesh.cells))]
        held = np.zeros(len(mesh.points), dtype=bool)
        for cells in mesh.cells:
            held[cells.corners.ravel()] = True
        mesh = with_points(mesh, held)
        if not held.any():
            raise Refusal(f"{given.input}: no {given.only}")
    blocks = blocks_of(mesh)
    version = None
    if given.output.endswith(".msh"):
        lost = lost_in_msh41(mesh, blocks)
        if lost and given.msh == "4.1":
            raise Refusal(f"MSH 4.1 as meshio writes it would lose {lost}; --msh 2.2 holds it")
        version = given.msh or ("2.2" if lost else "4.1")
        if lost and given.msh is None:
            progress(f"written as MSH 2.2, since 4.1 as meshio writes it would lose {lost}")
    progress(f"writing {given.output}")
    if version == "2.2":
        write_msh(given.output, mesh, repr)
    else:
        if given.output.endswith((".xdmf", ".xmf")) and given.only != "points" and len(mesh.cells[0]):
            progress(f"{len(mesh.cells[0])} points are left out, since meshio doesn't read them again beside other cells of XDMF")
            mesh.cells[0] = cells_of(0, [], [], [])
        write_by_meshio(given.output, mesh, blocks)
    counts = ", ".join(f"{len(cells)} {word}" for word, cells in zip(WORDS[::-1], mesh.cells[::-1]) if len(cells))
    print(f"stored: {given.output}{f' (MSH {version})' if version else ''}: {counts}, {len(mesh.points)} nodes")


if __name__ == "__main__":
    run(main)
