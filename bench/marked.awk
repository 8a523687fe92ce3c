# A mesh file with a body of a x b x c boxes of side 64, each cut into six tetrahedra, one for each order of the axes: the walk along them from the box's lowest corner to its highest has their corners. The triangles outside are marked.
function node(x, y, z) { return (x * (b + 1) + y) * (c + 1) + z + 1 }
# The node of the box at x, y, z that is u further along the axes.
function corner(u) { return node(x + int(u / 4), y + int(u / 2) % 2, z + u % 2) }
function tri(p, q, r) { number++; print number, 2, 2, 1, 1, p, q, r }
BEGIN {
    print "$MeshFormat\n2.2 0 8\n$EndMeshFormat\n$Nodes"
    print (a + 1) * (b + 1) * (c + 1)
    for (x = 0; x <= a; x++) for (y = 0; y <= b; y++) for (z = 0; z <= c; z++) print node(x, y, z), 64 * x, 64 * y, 64 * z
    print "$EndNodes\n$Elements"
    print 6 * a * b * c + 4 * (a * b + b * c + c * a)
    for (x = 0; x < a; x++) for (y = 0; y < b; y++) for (z = 0; z < c; z++) {
        low[4] = x == 0; low[2] = y == 0; low[1] = z == 0
        high[4] = x == a - 1; high[2] = y == b - 1; high[1] = z == c - 1
        for (i = 1; i <= 4; i *= 2) for (j = 1; j <= 4; j *= 2) if (i != j) {
            k = 7 - i - j
            number++
            print number, 4, 2, 1, 1, corner(0), corner(i), corner(i + j), corner(7)
            # The axis that is walked last is at its low end on the first three corners, and the first one at its high end on the last three.
            if (low[k]) tri(corner(0), corner(i), corner(i + j))
            if (high[i]) tri(corner(i), corner(i + j), corner(7))
        }
    }
    print "$EndElements"
}
