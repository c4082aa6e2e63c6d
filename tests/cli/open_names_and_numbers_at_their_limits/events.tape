O  live 120 32 3 16 16
O a:b live 120 32 3 16 16
O é live 120 32 3 16 16
O aaaaaaaaaaaaaaaaaaaaaaaaaaaaaaaaaaaaaaaaaaaaaaaaaaaaaaaaaaaaaaaaa live 120 32 3 16 16
O studio live 0 0 0 0 0
O a live 19 32 3 16 16
O a live 8001 32 3 16 16
O a live 20 31 3 16 16
O a live 20 8193 3 16 16
O a live 20 32 0 16 16
O a live 20 32 18 16 16
O a live 20 32 1 15 16
O a live 20 32 1 4097 16
O a live 20 32 1 16 15
O a live 20 32 1 16 4097
O a live 20 32 1 16 5000
O a live 4294967295 4294967295 4294967295 4294967295 4294967295
O a buffer 8000 32 1 16 16
O a buffer 8000 32 1 16 16
O b live 20 32 1 16 16
T 3 0
C 2 4611686018427387903
O a live 20 32 17 16 16
O many live 20 32 1 16 3000
