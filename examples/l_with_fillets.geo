// A bracket in the form of an L, rounded at its inner and its outer edge, with a fixed end and a loaded one.
SetFactory("OpenCASCADE");
DefineConstant[ h = 0.15 ];
Box(1) = {0, 0, 0, 1, 0.4, 0.25};
Box(2) = {0, 0, 0, 0.25, 0.4, 1};
BooleanUnion(3) = { Volume{1}; Delete; }{ Volume{2}; Delete; };
inner() = Curve In BoundingBox{0.24, -0.01, 0.24, 0.26, 0.41, 0.26};
outer() = Curve In BoundingBox{-0.01, -0.01, -0.01, 0.01, 0.41, 0.01};
Fillet{3}{ inner(), outer() }{ 0.15 }
Physical Volume("bracket", 1) = Volume{:};
all() = Surface{:};
fixed() = Surface In BoundingBox{-0.01, -0.01, 0.99, 0.26, 0.41, 1.01};
loaded() = Surface In BoundingBox{0.99, -0.01, -0.01, 1.01, 0.41, 0.26};
rest() = all();
rest() -= {fixed(), loaded()};
Physical Surface("fixed", 2) = {fixed()};
Physical Surface("loaded", 3) = {loaded()};
Physical Surface("rest", 4) = {rest()};
Mesh.MeshSizeMin = h;
Mesh.MeshSizeMax = h;
