⍝ A fault tells its own line and those of all callers.
∇MAIN
3 AREA 4
4 VOLUME 3000000000
∇

∇R←A AREA B
R←A×B
∇

∇R←A VOLUME B
⍝ so many cubes with this edge
R←B AREA B
R←B AREA R
R←A×R
∇
