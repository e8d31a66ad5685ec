PUB main
DAT
  byte STRING("ab") + 1[foo]
