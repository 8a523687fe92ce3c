# A mesh file with a box of a x b x c cubes of side 8, each cut into five tetrahedra that meet those of its neighbours in whole faces, and with so many further nodes that no tetrahedron uses.
function node(x, y, z) { return (x * (b + 1) + y) * (c + 1) + z + 1 }
function tet(p, q, r, s) { number++; print number, 4, 2, 1, 1, p, q, r, s }
BEGIN {
    count = (a + 1) * (b + 1) * (c + 1)
    print "$MeshFormat\n2.2 0 8\n$EndMeshFormat\n$Nodes"
    print count + further
    for (x = 0; x <= a; x++) for (y = 0; y <= b; y++) for (z = 0; z <= c; z++) print node(x, y, z), 8 * x, 8 * y, 8 * z
    for (i = 1; i <= further; i++) print count + i, 1000000 + i, 1000, 1000
    print "$EndNodes\n$Elements"
    print 5 * a * b * c
    for (x = 0; x < a; x++) for (y = 0; y < b; y++) for (z = 0; z < c; z++) {
        for (i = 0; i < 8; i++) {
            u = int(i / 4); v = int(i / 2) % 2; w = i % 2
            # Every other cube is mirrored.
            if ((x + y + z) % 2) u = 1 - u
            corner[i] = node(x + u, y + v, z + w)
        }
        tet(corner[0], corner[4], corner[2], corner[1])
        tet(corner[6], corner[2], corner[4], corner[7])
        tet(corner[5], corner[4], corner[1], corner[7])
        tet(corner[3], corner[1], corner[2], corner[7])
        tet(corner[1], corner[2], corner[4], corner[7])
    }
    print "$EndElements"
}
