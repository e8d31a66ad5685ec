PUB main
  ifnot 1
  elseif 2
  if 3
  else
PRI g
  repeat
    if 1
      next
    elseifnot 2
      quit
    else
     next
