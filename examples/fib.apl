⍝ Fibonacci numbers, each by two calls. A branch leads to a computed line, and from an empty one on to the next that is not.
∇MAIN
FIB 2
FIB 5
FIB 10
∇

∇R←FIB N
R←N
→4+N

→0
→0








R←(FIB N-1)+FIB N-2
∇
