∇MAIN
2+3×4
∇
