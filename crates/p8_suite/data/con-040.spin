PUB main
CON
  k_1 = (>| $1F => negx * true) >> true or (1 <> 1 or 1) ^ (1 - 1) << (1 >< 1)
  c2 = negx
  k_3 = ! || (c2 ** (true + false))
  Size4 = (k_3 * false // 7)
  k_5 = negx
  Size6 = $1F < (>| (97 // 3) or $3 << true)
  k_7 = 2 * 95
  k_8 = - false
  k_9 = ! (k_7 ^ k_7 > $A8546524) > (2147483648 << false => k_7 * 242 > >| (128 & true))
