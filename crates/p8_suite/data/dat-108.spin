PUB main
VAR
  long a
CON
  K = 63
DAT
t long 9
        long 0[1], (1 + 2)[2], byte -1[0]
q0 long long K[1 << 3]
        byte 0[K // 7], K[(2)], -1[5]
        long @a
        org 0
        djnz t, #$ - 1
