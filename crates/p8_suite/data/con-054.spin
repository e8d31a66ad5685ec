CON
  MAX1 = $8000_0000 * 2 / 2
  MAX2 = -7 // 2
  MAX3 = |< 33 + 1
  Size4 = >| NEGX
  k_5 = 1 -> 33
  c6 = 1 << 31
  MAX7 = 1 <# -1
  Size8 = 3 < 2 < 1
  MAX9 = TRUE * FALSE
  k_10 = "A" + 1
  k_11 = constant(3 + 4)
PUB main
