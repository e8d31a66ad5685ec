PUB main
CON #26, Size1
  k_2[2], c3, MAX4
  Size5[2], # k_2 + negx
  c6 = c3 <# Size5, c7, # ! true
  c8, k_9[$FFFF_FFFF], # MAX4, # true => true
