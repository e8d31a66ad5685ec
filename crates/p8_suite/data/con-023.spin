PUB main
CON
  Size1 = || ! (1 ** (1 // 3))
  MAX2 = true
  MAX3 = (Size1 or ((1660335_539 <# negx) ** - false)) and ^^ (%11111111 > 5421 and Size1)
  c4 = (256 and (|| true) < MAX3) & (true #> (|< $1F) ^ (Size1 // $10))
  MAX5 = + $40
  k_6 = true
  c7 = |< |< + (true & 56306)
  c8 = negx
  Size9 = k_6 ** (negx + (k_6 | c4) & Size1)
