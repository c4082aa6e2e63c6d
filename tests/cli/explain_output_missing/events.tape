U 0
