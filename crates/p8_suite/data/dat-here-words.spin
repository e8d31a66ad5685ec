PUB main
DAT
        org 1
        word $[2], $, $
        word $[3]
