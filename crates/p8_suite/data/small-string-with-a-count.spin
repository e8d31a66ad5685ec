PUB main
DAT
  byte "ab"[3]
