CON q1 = 1, q2
VAR long a, b
OBJ k : "kid"
DAT q3 long 5
PUB main