PUB main
DAT
  byte 1[foo], STRING("ab")[bar]
