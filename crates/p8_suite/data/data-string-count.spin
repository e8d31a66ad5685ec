PUB main
DAT
  byte STRING("ab")[foo]
