T 1 5
T 1 5
T 1 5
T 1 5
T 1 5
T 1 5
T 1 5
T 1 5
T 1 5
T 1 5
T 1 5
T 1 5
T 1 5
T 1 5
T 1 5
T 1 5
C 1 6
O files buffer 120 32 3 16 16
U 1
C 1 6
C 1 7
T 1 8
U 1
T 1 8
