// A box of two materials, cut across.
SetFactory("OpenCASCADE");
DefineConstant[ h = 0.25 ];
Box(1) = {0, 0, 0, 1, 0.5, 0.5};
Box(2) = {1, 0, 0, 0.6, 0.5, 0.5};
Coherence;
Physical Volume("steel", 1) = {1};
Physical Volume("rubber", 2) = {2};
fixed() = Surface In BoundingBox{-0.01, -0.01, -0.01, 0.01, 0.51, 0.51};
between() = Surface In BoundingBox{0.99, -0.01, -0.01, 1.01, 0.51, 0.51};
edge() = Curve In BoundingBox{0.99, -0.01, -0.01, 1.01, 0.51, 0.01};
corner() = Point In BoundingBox{-0.01, -0.01, -0.01, 0.01, 0.01, 0.01};
Physical Surface("fixed", 3) = {fixed()};
Physical Surface("between", 4) = {between()};
Physical Curve("edge", 5) = {edge()};
Physical Point("corner", 6) = {corner()};
Mesh.MeshSizeMin = h;
Mesh.MeshSizeMax = h;
