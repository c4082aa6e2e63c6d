T 0 5
O a live 0120 32 2 16 16
T 0 5
