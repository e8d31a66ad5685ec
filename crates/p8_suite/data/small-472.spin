CON q1 = 1,
 q2 = 2
PUB main