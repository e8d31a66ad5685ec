PUB main
CON
  MAX1, MAX2, k_3
