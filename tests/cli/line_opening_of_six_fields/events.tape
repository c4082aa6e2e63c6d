T 0 5
O a live 120 32 2 16
T 0 5
