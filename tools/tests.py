"""Tests the tools from the command line, with the built program between them; test.sh runs it."""
from __future__ import annotations

import importlib.util
import math
import os
import re
import shutil
import subprocess
import sys
import tempfile
from pathlib import Path

from common import determinants, edge_lengths, LARGEST_COORDINATE, Mesh, read_by_meshio, read_mesh, read_scale, Scale, scale_path, six_volumes, WORDS, write_scale

import numpy as np

TOOLS = Path(__file__).resolve().parent
ROOT = TOOLS.parent
MODELS = ("two_regions", "sphere_in_box", "l_with_fillets")
TOOL_NAMES = ("to_whole", "sizes", "from_whole", "part", "picture")
ROUNDS = 3


def ran(command, *words) -> subprocess.CompletedProcess:
    return subprocess.run([str(word) for word in (command, *words)], capture_output=True, text=True)


def tool(name: str, *words) -> subprocess.CompletedProcess:
    return ran(sys.executable, "-B", TOOLS / f"{name}.py", *words)


def done(name: str, *words) -> str:
    """What a tool prints where it succeeds."""
    ended = tool(name, *words)
    assert ended.returncode == 0, f"{name}.py {' '.join(map(str, words))} ended with {ended.returncode}: {ended.stderr.strip()[-300:]}"
    return ended.stdout


def refused(name: str, *words, status: int = 1) -> str:
    """The one line in which a tool refuses, after what it told of its progress."""
    ended = tool(name, *words)
    lines = ended.stderr.splitlines()
    assert ended.returncode == status, f"status {ended.returncode} in place of {status}: {ended.stderr[-300:]}"
    assert lines and all(line.startswith(f"{name}.py: ") for line in lines) and "Traceback" not in ended.stderr, ended.stderr
    assert not ended.stdout, ended.stdout
    return lines[-1]


# The program


def built_program() -> str:
    """The program that MESHADAPT names, or the one that the wrapper builds."""
    named = os.environ.get("MESHADAPT")
    if named:
        return named
    # Without words the wrapper builds the program and the program ends at once.
    subprocess.run([str(ROOT / "meshadapt")], stdout=subprocess.DEVNULL, stderr=subprocess.DEVNULL)
    return str(ROOT / "crates/meshadapt/out/meshadapt")


def adapted(program: str, mesh: str, *size, rounds: int = ROUNDS, passes: int = 0, name: str = "_adapted") -> str:
    """Runs the program and gives the path of what it stored."""
    out = mesh.removesuffix(".msh") + name
    ended = ran(program, "--plain", "--mesh", mesh, *size, "--rounds", rounds, "--collapse", passes, "--swap", passes, "--out", out)
    assert ended.returncode == 0, f"the program ended with {ended.returncode}: {ended.stdout.strip()}"
    return out + ".msh"


def size_between(path: str) -> str:
    """A uniform size in whole units for which about half of the edges are long."""
    mesh = read_mesh(path)
    return str(int(np.median(edge_lengths(mesh.points, mesh.tetrahedra)) / 1.5))


# Measures


def measures(mesh: Mesh) -> dict:
    """By dimension and tags: the number of points, the length of lines, the area of triangles, the volume of tetrahedra; each with the most that it changes by where each corner moves by 1."""
    found = {}
    for dimension, cells in enumerate(mesh.cells):
        corners = [mesh.points[cells.corners[:, i]] for i in range(dimension + 1)]
        sizes, changes = MEASURES[dimension](corners)
        keys = zip([dimension] * len(cells), cells.physical.tolist(), cells.geometrical.tolist())
        for key, size, change in zip(keys, sizes, changes):
            old = found.get(key, (0.0, 0.0))
            found[key] = (old[0] + size, old[1] + change)
    return found


def areas(a, b, c):
    return np.linalg.norm(np.cross(b - a, c - a), axis=1) / 2


def of_points(corners):
    return np.ones(len(corners[0])), np.zeros(len(corners[0]))


def of_lines(corners):
    a, b = corners
    return np.linalg.norm(b - a, axis=1), np.full(len(a), 2.0)


def of_triangles(corners):
    a, b, c = corners
    around = sum(np.linalg.norm(p - q, axis=1) for p, q in ((a, b), (b, c), (c, a)))
    return areas(a, b, c), around


def of_tetrahedra(corners):
    a, b, c, d = corners
    surface = areas(a, b, c) + areas(a, b, d) + areas(a, c, d) + areas(b, c, d)
    return np.abs(determinants(b - a, c - a, d - a)) / 6, surface


def total_volume(points, tetrahedra) -> float:
    return of_tetrahedra([points[tetrahedra[:, n]] for n in range(4)])[0].sum()


MEASURES = (of_points, of_lines, of_triangles, of_tetrahedra)


def agree(before: dict, after: dict, move: float):
    """The measures agree where each node moved by so much at most."""
    assert before.keys() == after.keys(), f"tags {sorted(before)} and {sorted(after)}"
    for key, (size, change) in before.items():
        allowed = 1.01 * change * move + 1e-12 * size
        assert abs(after[key][0] - size) <= allowed, f"{WORDS[key[0]]} with the tags {key[1:]} have {size} and then {after[key][0]}"


def real(path: str, scale: Scale) -> Mesh:
    mesh = read_mesh(path)
    mesh.points = scale.to_real(mesh.points)
    return mesh


def volumes_by_region(mesh: Mesh) -> dict:
    """Six times the volume of each region, exactly."""
    found = {}
    cells = mesh.cells[3]
    for volume, *region in zip(six_volumes(mesh.points, cells.corners), cells.physical.tolist(), cells.geometrical.tolist()):
        found[tuple(region)] = found.get(tuple(region), 0) + abs(volume)
    return found


def as_msh(path: str, points: list, elements: list):
    """A file of hand-made points and elements, as (type, tags, nodes from 1)."""
    lines = ["$MeshFormat", "2.2 0 8", "$EndMeshFormat", "$Nodes", str(len(points))]
    lines += [f"{i} {x} {y} {z}" for i, (x, y, z) in enumerate(points, 1)]
    lines += ["$EndNodes", "$Elements", str(len(elements))]
    lines += [" ".join(map(str, (i, kind, len(tags), *tags, *nodes))) for i, (kind, tags, nodes) in enumerate(elements, 1)]
    Path(path).write_text("\n".join(lines + ["$EndElements", ""]))


# What is tested on each model


def made_by_gmsh(folder: str) -> list:
    import gmsh

    gmsh.initialize()
    gmsh.option.setNumber("General.Terminal", 0)
    paths = []
    for name in MODELS:
        gmsh.open(str(ROOT / f"examples/{name}.geo"))
        gmsh.model.mesh.generate(3)
        paths.append(f"{folder}/{name}.msh")
        gmsh.write(paths[-1])
        gmsh.option.setNumber("Mesh.MshFileVersion", 2.2)
        gmsh.write(f"{folder}/{name}_22.msh")
        gmsh.option.setNumber("Mesh.MshFileVersion", 4.1)
        gmsh.clear()
    gmsh.finalize()
    return paths


def from_examples(folder: str) -> list:
    return [shutil.copy(ROOT / f"examples/{name}.msh", folder) for name in MODELS]


def whole_of(model: str) -> str:
    return model.replace(".msh", "_whole.msh")


def rounding_keeps_measures(model: str):
    done("to_whole", model, whole_of(model), "--rounds", ROUNDS)
    for words in ((), ("--spacing", "0.001")):
        out = model.replace(".msh", "_coarse.msh") if words else whole_of(model)
        done("to_whole", model, out, "--rounds", ROUNDS, *words)
        scale = read_scale(scale_path(out))
        agree(measures(read_mesh(model)), measures(real(out, scale)), scale.spacing * math.sqrt(3) / 2)
        whole = read_mesh(out).points
        assert (whole % 2**ROUNDS == 0).all() and whole.min() >= 0 and whole.max() <= LARGEST_COORDINATE


def refinement_keeps_measures(model: str):
    whole = whole_of(model)
    stored = adapted(PROGRAM, whole, "--uniform", size_between(whole))
    before, after = read_mesh(whole), read_mesh(stored)
    assert len(after.tetrahedra) > 2 * len(before.tetrahedra)
    assert volumes_by_region(before) == volumes_by_region(after)
    agree(measures(before), measures(after), 1e-6)
    assert sorted(before.names) == sorted(after.names)


def coarsening_keeps_measures(model: str):
    whole = whole_of(model)
    stored = adapted(PROGRAM, whole, "--uniform", 4 * int(size_between(whole)), rounds=1, passes=3, name="_coarsened")
    before, after = read_mesh(whole), read_mesh(stored)
    assert len(after.points) < len(before.points)
    assert volumes_by_region(before) == volumes_by_region(after)
    agree(measures(before), measures(after), 1e-6)
    assert sorted(before.names) == sorted(after.names)


def formats_read_back(model: str):
    stored = whole_of(model).replace(".msh", "_adapted.msh")
    scale_file = scale_path(whole_of(model))
    expected = measures(real(stored, read_scale(scale_file)))
    model_measures = measures(read_mesh(model))
    formats = ["vtu", "4.1.msh", "2.2.msh", "vtk"] + (["xdmf"] if importlib.util.find_spec("h5py") else [])
    for ending in formats:
        out = model.replace(".msh", f"_back.{ending}")
        version = ("--msh", ending[:3]) if ending.endswith("msh") else ()
        done("from_whole", stored, out, "--scale", scale_file, *version)
        again = read_by_meshio(out)
        assert len(again.points) == len(read_mesh(stored).points), out
        held = [key for key in expected if key[0] > 0 or ending != "xdmf"]
        agree({key: expected[key] for key in held}, measures(again), 0.0)
        agree({key: model_measures[key] for key in held}, measures(again), read_scale(scale_file).spacing)
        if ending == "vtu":
            done("to_whole", out, model.replace(".msh", "_again.msh"), "--rounds", 0)
            agree(expected, measures(real(model.replace(".msh", "_again.msh"), read_scale(model.replace(".msh", "_again.scale.json")))), read_scale(scale_file).spacing)
        if ending.endswith("msh"):
            assert sorted(again.names) == sorted(read_mesh(stored).names), out


def parts_are_balanced(model: str):
    whole = whole_of(model)
    for parts in (1, 4):
        out = model.replace(".msh", f".part{parts}")
        if parts > 1 and not shutil.which("mpmetis"):
            return "mpmetis isn't there"
        done("part", whole, parts, out)
        labels = [int(line) for line in Path(out).read_text().split("\n")[:-1]]
        assert len(labels) == len(read_mesh(whole).tetrahedra)
        counts = np.bincount(labels)
        assert len(counts) == parts and counts.max() <= 1.15 * len(labels) / parts, counts
    # Parts hang together: far fewer faces lie between two parts than if the lines were in another order.
    faces = {}
    for label, corners in zip(labels, read_mesh(whole).tetrahedra.tolist()):
        for left in corners:
            faces.setdefault(frozenset(corners) - {left}, []).append(label)
    between = sum(len(set(sides)) > 1 for sides in faces.values())
    assert between < 0.35 * len(labels), f"{between} faces between parts of {len(labels)} tetrahedra"


def parts_see_their_own_and_what_lies_around(model: str):
    whole = whole_of(model)
    if not shutil.which("mpmetis"):
        return "mpmetis isn't there"
    partition, schedule, out = (model.replace(".msh", ending) for ending in (".part3", ".sched", "_parts"))
    done("part", whole, 3, partition)
    Path(schedule).write_text("".join(f"{7 * n}\n" for n in range(12)))
    ended = ran(PROGRAM, "--mesh", whole, "--uniform", 64, "--parts", 3, "--partition", partition, "--schedule", schedule, "--rounds", 0, "--collapse", 0, "--swap", 0, "--out", out)
    assert ended.returncode == 0 and ended.stdout.endswith("done: parts 3 letters 18\n"), ended.stdout
    # The whole is what a run without parts stores.
    plain = adapted(PROGRAM, whole, "--uniform", 64, rounds=0, name="_plain")
    assert Path(f"{out}.msh").read_bytes() == Path(plain).read_bytes()
    mesh = read_mesh(plain)
    for part in range(3):
        view = read_mesh(f"{out}.p{part}.msh")
        owners, ghosts = view.cells[3].parts(), view.cells[3].ghosts()
        assert np.count_nonzero(owners == part) == np.count_nonzero(np.array(Path(partition).read_text().split(), int) == part)
        assert ((owners == part) == (ghosts == 0)).all()
        # It sees each tetrahedron that has a corner of one of its own.
        own = {tuple(point) for point in view.points[view.cells[3].corners[owners == part]].reshape(-1, 3).tolist()}
        around = sum(any(tuple(point) in own for point in corners) for corners in mesh.points[mesh.tetrahedra].tolist())
        assert around == len(view.tetrahedra), (around, len(view.tetrahedra))


def parts_refine_as_the_whole_does(model: str):
    whole = whole_of(model)
    if not shutil.which("mpmetis"):
        return "mpmetis isn't there"
    partition, schedule, out = (model.replace(".msh", ending) for ending in (".part5", ".sched5", "_parts5"))
    done("part", whole, 5, partition)
    Path(schedule).write_text("".join(f"{11 * n}\n" for n in range(200)))
    size = size_between(whole)
    ended = ran(PROGRAM, "--mesh", whole, "--uniform", size, "--parts", 5, "--partition", partition, "--schedule", schedule, "--rounds", 2, "--collapse", 0, "--swap", 0, "--out", out)
    assert ended.returncode == 0 and ended.stdout.endswith("done: parts 5 letters 180\n"), ended.stdout
    # The lines of rounds and the whole are those of a run without parts.
    words = ("--plain", "--mesh", whole, "--uniform", size, "--rounds", 2, "--collapse", 0, "--swap", 0, "--out", f"{out}_plain")
    assert ran(PROGRAM, *words).stdout.splitlines()[:-1] == ended.stdout.splitlines()[:-1]
    assert Path(f"{out}.msh").read_bytes() == Path(f"{out}_plain.msh").read_bytes()
    # The parts' own tetrahedra make up the whole, and each part has the volume that it had.
    before, after = read_mesh(whole), read_mesh(f"{out}.msh")
    labels = np.array(Path(partition).read_text().split(), int)
    views = [read_mesh(f"{out}.p{part}.msh") for part in range(5)]
    owned = [view.tetrahedra[view.cells[3].parts() == part] for part, view in enumerate(views)]
    assert sum(map(len, owned)) == len(after.tetrahedra)
    for part, view in enumerate(views):
        volume = total_volume(before.points, before.tetrahedra[labels == part])
        assert abs(total_volume(view.points, owned[part]) - volume) <= 1e-9 * volume, part


def parts_adapt_as_the_whole_does(model: str):
    whole = whole_of(model)
    if not shutil.which("mpmetis"):
        return "mpmetis isn't there"
    partition, schedule, out = (model.replace(".msh", ending) for ending in (".part6", ".sched6", "_parts6"))
    done("part", whole, 6, partition)
    Path(schedule).write_text("".join(f"{17 * n}\n" for n in range(300)))
    words = ("--uniform", size_between(whole), "--rounds", 2, "--collapse", 1, "--swap", 1, "--out")
    division = ("--parts", 6, "--partition", partition, "--schedule", schedule)
    ended = ran(PROGRAM, "--mesh", whole, *words[:2], *division, *words[2:], out)
    # Three phases in round 0, and in each later one those and seven for each pass.
    assert ended.returncode == 0 and ended.stdout.endswith(f"done: parts 6 letters {6 * 5 * (3 + 2 * 17)}\n"), ended.stdout
    plain = ran(PROGRAM, "--plain", "--mesh", whole, *words, f"{out}_plain")
    assert plain.stdout.splitlines()[:-1] == ended.stdout.splitlines()[:-1]
    assert Path(f"{out}.msh").read_bytes() == Path(f"{out}_plain.msh").read_bytes()
    views = [read_mesh(f"{out}.p{part}.msh") for part in range(6)]
    owned = [int((view.cells[3].parts() == part).sum()) for part, view in enumerate(views)]
    assert sum(owned) == len(read_mesh(f"{out}.msh").tetrahedra)


def pictures_show_the_mesh(model: str):
    if not importlib.util.find_spec("matplotlib"):
        return "matplotlib isn't there"
    from matplotlib import image

    stored = whole_of(model).replace(".msh", "_adapted.msh")
    seen = []
    middle = read_mesh(stored).points[:, 1].mean()
    for words in (("--colour", "region"), ("--colour", "quality", "--cut", "-y", middle)):
        out = model.replace(".msh", f"_{words[1]}.png")
        done("picture", stored, out, *words, "--size", 400, 320)
        pixels = image.imread(out)[:, :, :3]
        assert pixels.shape == (320, 400, 3)
        # Above the key the mesh fills a good part, in more colours than its edges have.
        drawn = pixels[:280]
        filled = (drawn.min(axis=2) < 0.99).mean()
        colours = len(np.unique((drawn.reshape(-1, 3) * 15).astype(int), axis=0))
        assert 0.1 < filled < 0.9 and colours > 10, f"{out}: {filled:.2f} filled in {colours} colours"
        assert (drawn[[0, -1]] > 0.99).all() and (drawn[:, [0, -1]] > 0.99).all(), f"{out} touches its frame"
        seen.append(drawn)
    assert (seen[0] != seen[1]).any()


def version_2_is_read_as_4(model: str):
    other = model.replace(".msh", "_22.msh")
    if not os.path.exists(other):
        return "gmsh isn't there"
    done("to_whole", other, other.replace(".msh", "_whole.msh"), "--rounds", ROUNDS)
    assert volumes_by_region(read_mesh(whole_of(model))) == volumes_by_region(read_mesh(other.replace(".msh", "_whole.msh")))
    assert sorted(read_mesh(other).names) == sorted(read_mesh(model).names)


# What is tested once

CORNER = [(0, 0, 0), (4, 0, 0), (0, 4, 0), (0, 0, 4)]


def flat_and_turned_are_named(folder: str):
    # The second is 0.4 high. The third has its last corner above the plane of the others, and below once all are rounded.
    points = [*CORNER, (0, 0, 10), (4, 0, 10), (0, 4, 10), (1, 1, 10.4), (0, 0, 20.38), (4, 0, 20.58), (0, 4, 20.58), (1, 1, 20.49)]
    as_msh(f"{folder}/thin.msh", points, [(4, (0, 1), (1, 2, 3, 4)), (4, (0, 1), (5, 6, 7, 8)), (4, (0, 1), (9, 10, 11, 12))])
    told = refused("to_whole", f"{folder}/thin.msh", f"{folder}/thin_whole.msh", "--spacing", 1)
    assert "tetrahedra 2 become flat; tetrahedra 3 turn over" in told, told
    spacing = re.search(r"--spacing (\S+) would do", told)[1]
    done("to_whole", f"{folder}/thin.msh", f"{folder}/thin_whole.msh", "--spacing", spacing)
    coarser = refused("to_whole", f"{folder}/thin.msh", f"{folder}/other.msh", "--spacing", 2 * float(spacing))
    assert f"--spacing {spacing} would do" in coarser, coarser
    assert not os.path.exists(f"{folder}/other.msh")


def nodes_together_are_named(folder: str):
    points = [*CORNER, (0, 0, 4.3), (1, 1, 9)]
    as_msh(f"{folder}/near.msh", points, [(4, (0, 1), (1, 2, 3, 4)), (4, (0, 1), (2, 3, 5, 6))])
    told = refused("to_whole", f"{folder}/near.msh", f"{folder}/near_whole.msh", "--spacing", 1)
    assert "nodes 4 and 5 fall together" in told and "--spacing 0.5 would do" in told, told


def fewer_rounds_are_told(folder: str):
    # 2^30 steps of 8 are too coarse for a gap of 1 in 2^29, and steps of 1 aren't.
    points = [(0, 0, 0), (2**29, 0, 0), (0, 2**29, 0), (0, 0, 2**29), (0, 0, 2**29 + 1), (0, 2**28, 2**29 + 64)]
    as_msh(f"{folder}/gap.msh", points, [(4, (0, 1), (1, 2, 3, 4)), (4, (0, 1), (2, 3, 5, 6))])
    told = refused("to_whole", f"{folder}/gap.msh", f"{folder}/gap_whole.msh", "--rounds", 3)
    assert "nodes 4 and 5 fall together" in told, told
    fewer = re.search(r"--rounds (\d) would", told)[1]
    done("to_whole", f"{folder}/gap.msh", f"{folder}/gap_whole.msh", "--rounds", fewer)


def faults_of_the_input_are_named(folder: str):
    cases = (
        ([*CORNER, (1, 1, 0)], [(4, (), (1, 2, 3, 4)), (4, (), (1, 2, 3, 5))], "tetrahedra 2 are flat"),
        ([*CORNER, (4, 0, 0)], [(4, (), (1, 2, 3, 4)), (4, (), (1, 5, 3, 4))], "nodes 2 and 5 are at one place"),
        (CORNER, [(4, (1, 1), (1, 2, 3, 4)), (4, (2, 1), (2, 1, 4, 3))], "tetrahedra 1 and 2 have the same nodes"),
        (CORNER, [(2, (1, 1), (1, 2, 3))], "no tetrahedra"),
        ([*CORNER] + [(i, i, i) for i in range(5, 11)], [(11, (1, 1), range(1, 11))], "1 tetra10"),
        ([(0, 0, 0), (4, 0, 0), (0, 4, 0), ("nan", 0, 4)], [(4, (), (1, 2, 3, 4))], "no numbers"),
    )
    for points, elements, expected in cases:
        as_msh(f"{folder}/fault.msh", points, elements)
        told = refused("to_whole", f"{folder}/fault.msh", f"{folder}/fault_whole.msh")
        assert expected in told, told


def hidden_flatness_is_seen(folder: str):
    # The last point is the middle of the two before it. Floating point gives a volume of -2e-15.
    points = [(2.3, -1.2, 2.2), (-1.1, 2.6, 1.5), (-0.5, -1.5, -2.9), (-0.8, 0.55, -0.7)]
    as_msh(f"{folder}/slant.msh", points, [(4, (), (1, 2, 3, 4))])
    assert "tetrahedra 1 are flat" in refused("to_whole", f"{folder}/slant.msh", f"{folder}/slant_whole.msh")


def what_is_left_out_is_counted(folder: str):
    points = [*CORNER, (9, 9, 9), (8, 8, 8), (7, 7, 7), (6, 7, 7)]
    points += [(0, 0, -4)]
    elements = [(3, (1, 1), (5, 6, 7, 8)), (2, (1, 1), (5, 6, 7)), (2, (0, 0), (1, 2, 3)), (2, (1, 1), (1, 4, 9)), (1, (1, 1), (4, 9))]
    elements += [(4, (1, 1), (1, 2, 3, 4)), (4, (1, 1), (1, 2, 3, 9))]
    as_msh(f"{folder}/more.msh", points, elements)
    told = done("to_whole", f"{folder}/more.msh", f"{folder}/more_whole.msh")
    assert "left out: 1 quad, 4 nodes of no tetrahedron, 1 triangles on such nodes" in told and "without tags: 1 triangles" in told, told
    assert "loose: 1 triangles" in told and "loose: 1 lines" in told, told
    mesh = read_mesh(f"{folder}/more_whole.msh")
    assert [len(cells) for cells in mesh.cells] == [0, 1, 2, 2] and len(mesh.points) == 5


def large_volumes_are_exact(folder: str):
    side = 2**30
    mesh = np.array([(0, 0, 0), (side, 0, 1), (0, side, 0), (1, 0, side)])
    volume = six_volumes(mesh, np.array([[0, 1, 2, 3]]))[0]
    assert volume == side**3 - side, volume


def sizes_are_in_whole_units(folder: str):
    write_scale(f"{folder}/half.scale.json", Scale(0.5, [10.0, 0.0, 0.0], 1))
    words = ("--scale", f"{folder}/half.scale.json", "--uniform", 8, "--box", 11.2, -1e-1, 0, 13.7, "inf", 3, 2, "--near", 20, 0, 0, 2, 3)
    # The grid has steps of 1. From 20 to 10 there are 20 units. The size 3 is doubled once before it passes 8.
    expected = "default 16\nbox 12 -8 -8 28 8 8 12\nbox 16 -4 -4 24 4 4 6\nbox 2 -2 0 8 1073741824 6 4\n"
    told = done("sizes", *words)
    assert told == expected, told
    done("sizes", *words, "--out", f"{folder}/half.size")
    assert Path(f"{folder}/half.size").read_text() == expected
    assert "less than a whole unit" in refused("sizes", "--scale", f"{folder}/half.scale.json", "--uniform", 0.001)
    assert done("sizes", "--scale", f"{folder}/half.scale.json", "--uniform", 1e12) == "default 1073741824\n"
    assert "low corner" in refused("sizes", *words, "--box", 1, 0, 0, 0, 1, 1, 2, status=2)


def size_files_are_taken(folder: str):
    model = f"{folder}/l_with_fillets.msh"
    whole = whole_of(model)
    size_file = f"{folder}/l.size"
    done("sizes", "--scale", scale_path(whole), "--uniform", 10, "--near", 0.25, 0.2, 0.25, 0.2, 0.1, "--out", size_file)
    words = ("--plain", "--mesh", whole, "--size", size_file, "--rounds", ROUNDS, "--collapse", 0, "--swap", 0, "--out", f"{folder}/l_sized")
    ended = ran(PROGRAM, *words)
    if ended.returncode == 1:
        return "the program doesn't take --size"
    assert ended.returncode == 0, ended.stdout
    before, after = read_mesh(whole), read_mesh(f"{folder}/l_sized.msh")
    assert volumes_by_region(before) == volumes_by_region(after)
    agree(measures(before), measures(after), 1e-6)
    # Where the size is small there are more nodes, and far from it none.
    scale = read_scale(scale_path(whole))
    near = [np.count_nonzero(np.abs(scale.to_real(mesh.points) - (0.25, 0.2, 0.25)).max(axis=1) < 0.2) for mesh in (before, after)]
    far = [np.count_nonzero(scale.to_real(mesh.points)[:, 2] > 0.95) for mesh in (before, after)]
    assert near[1] > 2 * near[0] and far[0] == far[1], (near, far)


def parts_are_cell_data(folder: str):
    # A part's file with an own tetrahedron of part 1, a ghost of part 0, and a triangle that both have.
    points = [(0, 0, 0), (0, 0, 8), (0, 8, 0), (8, 0, 0), (8, 8, 8)]
    elements = [(2, (7, 9, 2, 1, 2), (2, 3, 4)), (4, (0, 1, 2, 1, -2), (1, 2, 4, 3)), (4, (0, 1, 1, 2), (2, 3, 5, 4))]
    as_msh(f"{folder}/two.p1.msh", points, elements)
    write_scale(f"{folder}/two.p1.scale.json", Scale(0.125, [0.0, 0.0, 1.0], 3))
    done("from_whole", f"{folder}/two.p1.msh", f"{folder}/two.vtu")
    mesh = read_mesh(f"{folder}/two.vtu")
    assert mesh.cells[3].parts().tolist() == [0, 1] and mesh.cells[3].ghosts().tolist() == [1, 0]
    assert mesh.cells[2].parts().tolist() == [0] and mesh.cells[2].physical.tolist() == [7]
    assert mesh.points.tolist() == [[0, 0, 1], [0, 0, 2], [0, 1, 1], [1, 0, 1], [1, 1, 2]]
    # A part's tags stay as they are where MSH 2.2 holds them.
    assert "(MSH 2.2)" in done("from_whole", f"{folder}/two.p1.msh", f"{folder}/two.msh")
    assert [cells.further for cells in read_mesh(f"{folder}/two.msh").cells[2:]] == [[(2, 1, 2)], [(2, 1, -2), (1, 2)]]
    if importlib.util.find_spec("matplotlib"):
        done("picture", f"{folder}/two.vtu", f"{folder}/two.png", "--colour", "part")


def parts_refine_as_was_worked_out(folder: str):
    mesh, partition, schedule, size = (f"{folder}/divided{ending}" for ending in (".msh", ".part", ".sched", ".size"))
    Path(schedule).write_text("")
    Path(size).write_text("default 64\nbox 0 0 0 4 4 4 2\n")

    def run_over_parts(labels: str, sizes: tuple, rounds: int) -> str:
        """What a run over two parts prints, where it stores the mesh and puts the lines of rounds of a run without parts."""
        Path(partition).write_text(labels)
        rest = (*sizes, "--rounds", rounds, "--collapse", 0, "--swap", 0, "--out")
        plain = ran(PROGRAM, "--plain", "--mesh", mesh, *rest, f"{folder}/plain")
        division = ("--parts", 2, "--partition", partition, "--schedule", schedule)
        ended = ran(PROGRAM, "--mesh", mesh, *sizes, *division, *rest[2:], f"{folder}/parts")
        assert ended.returncode == plain.returncode, ended.stdout
        if ended.returncode:
            assert ended.stdout == plain.stdout
            return ended.stdout
        assert ended.stdout.splitlines()[:-1] == plain.stdout.splitlines()[:-1], ended.stdout
        assert Path(f"{folder}/parts.msh").read_bytes() == Path(f"{folder}/plain.msh").read_bytes()
        return ended.stdout

    # Two tetrahedra with a common face, a common edge and a common corner, over two parts.
    apexes = ((8, 8, 8), (0, -8, -8), (-8, -8, 8))
    for apex, common in zip(apexes, ((2, 3, 4), (1, 2), (1,))):
        rest = [(0, -8, 0), (0, 0, -8)][: 3 - len(common)]
        as_msh(mesh, [(0, 0, 0), (8, 0, 0), (0, 8, 0), (0, 0, 8), apex, *rest], [(4, (0, 1), (1, 2, 3, 4)), (4, (0, 1), (*common, *range(5, 9 - len(common))))])
        for labels in ("0\n1\n", "1\n0\n", "0\n0\n"):
            assert run_over_parts(labels, ("--uniform", 4), 1).endswith("done: parts 2 letters 12\n")
            assert run_over_parts(labels, ("--size", size), 2).endswith("done: parts 2 letters 18\n")
    # Each round makes eight of one, and the seventh too many, also where a part has none.
    as_msh(mesh, [(0, 0, 0), (128, 0, 0), (0, 128, 0), (0, 0, 128)], [(4, (0, 1), (1, 2, 3, 4))])
    assert run_over_parts("1\n", ("--uniform", 1), 7).endswith("too many: round 7 stage 0 tets 2097152\n")


def one_dimension_is_written_alone(folder: str):
    # The fourth point of the tetrahedron isn't on the triangle.
    as_msh(f"{folder}/alone.msh", CORNER, [(2, (5, 1), (1, 2, 3)), (4, (7, 1), (1, 2, 3, 4))])
    write_scale(f"{folder}/alone.scale.json", Scale(1.0, [0.0, 0.0, 0.0], 0))
    done("from_whole", f"{folder}/alone.msh", f"{folder}/alone.vtu", "--only", "triangles")
    mesh = read_mesh(f"{folder}/alone.vtu")
    assert [len(cells) for cells in mesh.cells] == [0, 0, 1, 0] and mesh.points.tolist() == [list(point) for point in CORNER[:3]]
    assert "no lines" in refused("from_whole", f"{folder}/alone.msh", f"{folder}/none.vtu", "--only", "lines")


def coordinates_come_back(folder: str):
    # Multiples of a power of two are taken to whole numbers and back without a change.
    points = [(0.5, -3, 7.25), (2.75, -3, 7.25), (0.5, 1, 7.25), (0.5, -3, 11)]
    as_msh(f"{folder}/dyadic.msh", points, [(4, (5, 6), (1, 2, 3, 4))])
    done("to_whole", f"{folder}/dyadic.msh", f"{folder}/dyadic_whole.msh")
    done("from_whole", f"{folder}/dyadic_whole.msh", f"{folder}/dyadic.vtu")
    assert read_mesh(f"{folder}/dyadic.vtu").points.tolist() == [list(point) for point in points]


def groups_of_newer_files_are_read(folder: str):
    if importlib.util.find_spec("gmsh") is None:
        return "gmsh isn't there"
    import gmsh

    gmsh.initialize()
    gmsh.option.setNumber("General.Terminal", 0)
    gmsh.model.occ.addBox(0, 0, 0, 1, 1, 1)
    gmsh.model.occ.synchronize()
    gmsh.model.mesh.generate(3)
    groups = ((2, [1], "one"), (2, [1, 2], "two"), (3, [1], "body"))
    for number, (dimension, entities, name) in enumerate(groups, 1):
        gmsh.model.setPhysicalName(dimension, gmsh.model.addPhysicalGroup(dimension, entities, number), name)
    gmsh.write(f"{folder}/box_41.msh")
    gmsh.option.setNumber("Mesh.MshFileVersion", 2.2)
    gmsh.write(f"{folder}/box_22.msh")
    newer, older = read_mesh(f"{folder}/box_41.msh"), read_mesh(f"{folder}/box_22.msh")
    agree(measures(older), measures(newer), 0.0)
    assert sorted({key[1] for key in measures(newer) if key[0] == 2}) == [1, 2] and sorted(newer.names) == sorted(older.names)
    gmsh.model.setPhysicalName(3, gmsh.model.addPhysicalGroup(3, [1], 4), "again")
    gmsh.write(f"{folder}/twice_22.msh")
    gmsh.option.setNumber("Mesh.MshFileVersion", 4.1)
    gmsh.write(f"{folder}/twice_41.msh")
    gmsh.finalize()
    for version in (22, 41):
        assert "two physical groups" in refused("to_whole", f"{folder}/twice_{version}.msh", f"{folder}/twice_whole.msh")


def groups_that_overlap_are_kept(folder: str):
    # One name in two dimensions, and a triangle in two physical groups: MSH 4.1 as meshio writes it can't hold either.
    as_msh(f"{folder}/groups.msh", CORNER, [(2, (5, 1), (1, 2, 3)), (2, (6, 1), (1, 2, 3)), (4, (7, 1), (1, 2, 3, 4))])
    text = Path(f"{folder}/groups.msh").read_text()
    Path(f"{folder}/groups.msh").write_text(text.replace("$Nodes", '$PhysicalNames\n2\n2 5 "part"\n3 7 "part"\n$EndPhysicalNames\n$Nodes', 1))
    done("to_whole", f"{folder}/groups.msh", f"{folder}/groups_whole.msh")
    assert "(MSH 2.2)" in done("from_whole", f"{folder}/groups_whole.msh", f"{folder}/groups_back.msh")
    assert "would lose" in refused("from_whole", f"{folder}/groups_whole.msh", f"{folder}/other.msh", "--msh", "4.1")
    back = read_mesh(f"{folder}/groups_back.msh")
    assert back.cells[2].physical.tolist() == [5, 6] and back.names == [(2, 5, "part"), (3, 7, "part")]


def help_shows_an_example(folder: str):
    for name in TOOL_NAMES:
        assert f"example:\n  tools/{name}.py " in done(name, "--help"), name


def faults_take_one_line(folder: str):
    missing = f"{folder}/missing.msh"
    Path(f"{folder}/bad.scale.json").write_text("{}")
    Path(f"{folder}/cut.msh").write_text("$MeshFormat\n2.2 0 8\n$EndMeshFormat\n$Nodes\n1\n")
    cases = {
        "to_whole": (missing, f"{folder}/out.msh"),
        "sizes": ("--scale", f"{folder}/bad.scale.json", "--uniform", 1),
        "from_whole": (missing, f"{folder}/out.vtu"),
        "part": (missing, 2, f"{folder}/out.part"),
        "picture": (missing, f"{folder}/out.png"),
    }
    for name, words in cases.items():
        refused(name, *words)
        assert "--help" in refused(name, "--no-such-word", *words, status=2)
    for name in ("to_whole", "part", "picture"):
        words = [str(word).replace("missing", "cut") for word in cases[name]]
        assert "cut.msh: not a whole MSH 2.2 file" in refused(name, *words)
    assert "written over" in refused("to_whole", f"{folder}/dyadic.msh", f"{folder}/../{Path(folder).name}/dyadic.msh")
    assert "a folder" in refused("to_whole", f"{folder}/dyadic.msh", f"{folder}/no/such/a folder/out.msh")


def wrapper_explains(folder: str):
    # The wrapper beside a copy of the program, so that nothing is built.
    place = Path(folder) / "wrapped"
    (place / "crates/meshadapt/out").mkdir(parents=True)
    (place / "crates.txt").touch()
    shutil.copy(ROOT / "meshadapt", place)
    shutil.copy(PROGRAM, place / "crates/meshadapt/out/meshadapt")
    wrapper = place / "meshadapt"
    ended = ran(wrapper)
    assert (ended.returncode, ended.stdout) == (1, "usage\n"), ended
    assert "--plain --mesh M (--uniform H | --size S)" in ended.stderr, ended.stderr
    words = ("--uniform", 1, "--rounds", 0, "--collapse", 0, "--swap", 0, "--out", f"{folder}/wrapped_out")
    as_msh(f"{folder}/fraction.msh", [*CORNER[:3], (0, 0, 0.5)], [(4, (0, 1), (1, 2, 3, 4))])
    Path(f"{folder}/newer.msh").write_text("$MeshFormat\n4.1 0 8\n$EndMeshFormat\n")
    for name, told in (("fraction", "line 9: not whole"), ("newer", "line 2: other version")):
        ended = ran(wrapper, "--plain", "--mesh", f"{folder}/{name}.msh", *words)
        assert (ended.returncode, ended.stdout) == (4, f"refused: mesh {told}\n"), ended
        assert "tools/to_whole.py" in ended.stderr, ended.stderr
    ended = ran(wrapper, "--plain", "--mesh", f"{folder}/missing.msh", *words)
    assert (ended.returncode, ended.stdout, ended.stderr) == (4, "refused: mesh: missing\n", ""), ended
    as_msh(f"{folder}/corner.msh", CORNER, [(4, (0, 1), (1, 2, 3, 4))])
    ended = ran(wrapper, "--plain", "--mesh", f"{folder}/corner.msh", *words[:2], "--rounds", 3, *words[4:])
    assert (ended.returncode, ended.stdout) == (4, "refused: rounds 3 grid 2\n") and "to_whole.py IN OUT.msh --rounds 3" in ended.stderr, ended
    ended = ran(wrapper, "--plain", "--mesh", f"{folder}/corner.msh", *words)
    assert (ended.returncode, ended.stderr) == (0, "") and ended.stdout.endswith("done: plain\n"), ended


ON_EACH_MODEL = (rounding_keeps_measures, refinement_keeps_measures, coarsening_keeps_measures, formats_read_back, parts_are_balanced, parts_see_their_own_and_what_lies_around, parts_refine_as_the_whole_does, parts_adapt_as_the_whole_does, pictures_show_the_mesh, version_2_is_read_as_4)
ONCE = (
    flat_and_turned_are_named,
    nodes_together_are_named,
    fewer_rounds_are_told,
    faults_of_the_input_are_named,
    hidden_flatness_is_seen,
    what_is_left_out_is_counted,
    large_volumes_are_exact,
    sizes_are_in_whole_units,
    size_files_are_taken,
    parts_are_cell_data,
    parts_refine_as_was_worked_out,
    one_dimension_is_written_alone,
    coordinates_come_back,
    groups_of_newer_files_are_read,
    groups_that_overlap_are_kept,
    help_shows_an_example,
    faults_take_one_line,
    wrapper_explains,
)


def main():
    global PROGRAM
    PROGRAM = built_program()
    if not os.access(PROGRAM, os.X_OK):
        print(f"the tools can't be tested without the program {PROGRAM}\n0 passed, 1 failed")
        sys.exit(1)
    passed = failed = 0
    with tempfile.TemporaryDirectory() as folder:
        with_gmsh = "--examples" not in sys.argv and importlib.util.find_spec("gmsh") is not None
        models = made_by_gmsh(folder) if with_gmsh else from_examples(folder)
        print(f"models: {'made by gmsh from' if with_gmsh else 'the coarse ones in'} examples/", flush=True)
        tests = [(f"{Path(model).stem}: {test.__name__}", test, model) for model in models for test in ON_EACH_MODEL]
        tests += [(test.__name__, test, folder) for test in ONCE]
        for name, test, argument in tests:
            name = name.replace("_", " ")
            try:
                reason = test(argument)
            except Exception as fault:
                failed += 1
                print(f"FAILED {name}: {type(fault).__name__}: {fault}", flush=True)
                continue
            if reason:
                print(f"not run: {name}, since {reason}", flush=True)
            else:
                passed += 1
                print(f"passed: {name}", flush=True)
    print(f"{passed} passed, {failed} failed")
    sys.exit(failed > 0)


if __name__ == "__main__":
    main()
