PUB main
CON
  MAX1 = $7F - true
  c2 = MAX1
  c3 = 2147483_648
  k_4 = (true and MAX1) // $10
  c5 = $7FFFFFFF - c3 and (k_4 or ^^ false)
  MAX6 = || (c5 ** c2) <# ^^ || (negx #> negx)
  Size7 = negx + negx
  Size8 = true
  Size9 = negx * ^^ (127 | 32 << 1)
