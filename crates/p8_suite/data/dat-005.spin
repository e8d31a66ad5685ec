CON
  K = 142
DAT
        org
        ORG $1F0 - 2
tab0 mov 5, #3
PUB main
PRI two
