PUB main
DAT
  byte "a"[foo]
