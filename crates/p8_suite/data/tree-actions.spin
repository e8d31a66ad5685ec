PUB main
  x := 2 + 3 * 4
  a~
  a[1] := b + 1
  f(1, x)
  \f
  if a AND NOT b
    return x
  return
  abort 1
  abort
