#!/usr/bin/env python3
"""Writes a size file for meshadapt from sizes in real units."""
from __future__ import annotations

import math
import sys

from common import Arguments, LARGEST_COORDINATE, read_scale, Refusal, run, Scale

DESCRIPTION = """Writes a size file for meshadapt from real units: the length that edges are to have,
everywhere and within boxes. An edge longer than three halves of it is bisected.
Where boxes overlap the least size counts, whatever their order. --near gives the
size h within r of a place, 2h within 2r, 4h within 4r and so on, up to the size
elsewhere; boxes stand for the balls. Boxes are rounded outwards to the grid."""

MOST_BOXES = 10_000


def arguments():
    parser = Arguments(DESCRIPTION, "tools/sizes.py --scale whole.scale.json --uniform 0.2 --near 0 0 1 0.05 0.02 --out whole.size")
    parser.add_argument("--scale", required=True, metavar="FILE", help="the scale that to_whole.py stored")
    parser.add_argument("--uniform", required=True, type=float, metavar="H", help="the size outside of all boxes")
    parser.add_argument("--box", nargs=7, type=float, action="append", default=[], metavar=("X0", "Y0", "Z0", "X1", "Y1", "Z1", "H"), help="the size H within a box, by its low and its high corner; may be given more than once")
    parser.add_argument("--near", nargs=5, type=float, action="append", default=[], metavar=("X", "Y", "Z", "R", "H"), help="the size H within R of a place, growing outwards; may be given more than once")
    parser.add_argument("--out", metavar="FILE", help="the size file (default: standard output)")
    given = parser.parse_args()
    sizes = [given.uniform, *(box[6] for box in given.box), *(near[4] for near in given.near), *(near[3] for near in given.near)]
    if not all(0 < size < math.inf for size in sizes):
        parser.error("sizes and distances are numbers above 0")
    if any(math.isnan(number) for box in given.box for number in box) or not all(math.isfinite(number) for near in given.near for number in near):
        parser.error("corners and places are numbers")
    for box in given.box:
        if any(low > high for low, high in zip(box[:3], box[3:6])):
            parser.error(f"the box {' '.join(map(repr, box[:6]))} holds nothing: give its low corner first")
    return given


def boxes_near(near: list, uniform: float) -> list:
    """Nested cubes about a place, the size doubled as the distance is, until it is that elsewhere."""
    *place, distance, size = near
    boxes = []
    while not boxes or size < uniform:
        boxes.append([*(c - distance for c in place), *(c + distance for c in place), size])
        distance, size = 2 * distance, 2 * size
    return boxes


def whole_size(size: float, scale: Scale) -> int:
    """The size in whole units. One past the largest stands for the largest, which is the range of a coordinate."""
    whole = round(size / scale.unit)
    if whole < 1:
        raise Refusal(f"the size {size!r} is less than a whole unit, which is {scale.unit!r}")
    return min(whole, LARGEST_COORDINATE)


def whole_bound(bound: float, axis: int, outwards, scale: Scale) -> int:
    """The bound in whole units, rounded outwards to the grid, on which the nodes lie, and within the range of coordinates."""
    steps = (bound - scale.origin[axis]) / scale.spacing
    most = LARGEST_COORDINATE / 2**scale.grid
    return int(outwards(max(-most, min(most, steps)))) * 2**scale.grid


def size_file(uniform: float, boxes: list, scale: Scale) -> str:
    lines = [f"default {whole_size(uniform, scale)}"]
    # The program takes the last box that holds a place.
    for *corners, size in sorted(boxes, key=lambda box: -box[6]):
        low = [whole_bound(corners[axis], axis, math.floor, scale) for axis in range(3)]
        high = [whole_bound(corners[3 + axis], axis, math.ceil, scale) for axis in range(3)]
        lines.append(" ".join(map(str, ["box", *low, *high, whole_size(size, scale)])))
    return "\n".join(lines) + "\n"


def main():
    given = arguments()
    scale = read_scale(given.scale)
    boxes = given.box + [box for near in given.near for box in boxes_near(near, given.uniform)]
    if len(boxes) > MOST_BOXES:
        raise Refusal(f"{len(boxes)} boxes; meshadapt takes {MOST_BOXES} at most")
    text = size_file(given.uniform, boxes, scale)
    if given.out is None:
        sys.stdout.write(text)
        return
    with open(given.out, "w", encoding="ascii") as file:
        file.write(text)
    print(f"stored: {given.out}: size {whole_size(given.uniform, scale)} in whole units, and {len(boxes)} boxes")


if __name__ == "__main__":
    run(main)
