# A mesh file with g x g x h boxes of side 64, a cube where h isn't given, each cut into six tetrahedra, one for each order of the axes. Its corners are marked points, its edges marked lines with a tag for each, and its sides marked triangles with a tag for each.
function node(x, y, z) { return (x * (g + 1) + y) * (h + 1) + z + 1 }
# The node of the box at x, y, z that is u further along the axes.
function corner(u) { return node(x + int(u / 4), y + int(u / 2) % 2, z + u % 2) }
function element(kind, phys, elem, nodes) { print ++number, kind, 2, phys, elem, nodes }
BEGIN {
    if (!h) h = g
    print "$MeshFormat\n2.2 0 8\n$EndMeshFormat\n$PhysicalNames\n2\n2 1 \"skin\"\n3 2 \"body\"\n$EndPhysicalNames\n$Nodes"
    print (g + 1) * (g + 1) * (h + 1)
    for (x = 0; x <= g; x++) for (y = 0; y <= g; y++) for (z = 0; z <= h; z++) print node(x, y, z), 64 * x, 64 * y, 64 * z
    print "$EndNodes\n$Elements"
    print 8 + 8 * g + 4 * h + 4 * g * g + 8 * g * h + 6 * g * g * h
    for (i = 0; i < 2; i++) for (j = 0; j < 2; j++) for (k = 0; k < 2; k++) element(15, 0, 1 + i + 2 * j + 4 * k, node(g * i, g * j, h * k))
    for (i = 0; i < 2; i++) for (j = 0; j < 2; j++) for (x = 0; x < g; x++) {
        element(1, 0, 1 + i + 2 * j, node(x, g * i, h * j) " " node(x + 1, g * i, h * j))
        element(1, 0, 5 + i + 2 * j, node(g * i, x, h * j) " " node(g * i, x + 1, h * j))
    }
    for (i = 0; i < 2; i++) for (j = 0; j < 2; j++) for (z = 0; z < h; z++) element(1, 0, 9 + i + 2 * j, node(g * i, g * j, z) " " node(g * i, g * j, z + 1))
    side[4] = 1; side[2] = 3; side[1] = 5
    for (x = 0; x < g; x++) for (y = 0; y < g; y++) for (z = 0; z < h; z++) {
        low[4] = x == 0; low[2] = y == 0; low[1] = z == 0
        high[4] = x == g - 1; high[2] = y == g - 1; high[1] = z == h - 1
        for (i = 1; i <= 4; i *= 2) for (j = 1; j <= 4; j *= 2) if (i != j) {
            k = 7 - i - j
            element(4, 2, 1, corner(0) " " corner(i) " " corner(i + j) " " corner(7))
            # The axis that is walked last is at its low end on the first three corners, and the first one at its high end on the last three.
            if (low[k]) element(2, 1, side[k], corner(0) " " corner(i) " " corner(i + j))
            if (high[i]) element(2, 1, side[i] + 1, corner(i) " " corner(i + j) " " corner(7))
        }
    }
    print "$EndElements"
}
