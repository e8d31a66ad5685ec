CON
  K = 2
PUB main
DAT
  byte STRING("ab")[foo], STRING("ab")[3], STRING("cd")[1 / 0], STRING("ef")[K]
  byte STRING("a")[2], "b"[2]
