// A ball within a box.
SetFactory("OpenCASCADE");
DefineConstant[ h = 0.2 ];
Box(1) = {-0.5, -0.5, -0.5, 1, 1, 1};
Sphere(2) = {0, 0, 0, 0.3};
BooleanFragments{ Volume{1}; Delete; }{ Volume{2}; Delete; }
Physical Volume("ball", 1) = {2};
Physical Volume("rest", 2) = {3};
sphere() = Boundary{ Volume{2}; };
bottom() = Surface In BoundingBox{-0.51, -0.51, -0.51, 0.51, 0.51, -0.49};
Physical Surface("sphere", 3) = {sphere()};
Physical Surface("bottom", 4) = {bottom()};
Mesh.MeshSizeMin = h;
Mesh.MeshSizeMax = h;
