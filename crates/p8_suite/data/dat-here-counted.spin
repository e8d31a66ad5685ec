PUB main
DAT
        org 5
        long $[3]
        long $, $
