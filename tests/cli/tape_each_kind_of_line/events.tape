T 0 5
U 0
U 0
S 0
T 1 5
