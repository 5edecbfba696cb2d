⍝ Sums in any shape. What stands beside them is read and checked.
VAR TOTAL NUM RANK 0

∇MAIN;X
(2+3)×4
FIRST: (10-(5-2))×¯1   ⍝ seven, with its sign turned

((7))
∇

∇R←TWICE B
∇
