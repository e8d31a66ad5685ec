PUB main
VAR
  long a
CON
  K = 121
DAT
t long 9
here_0 long 0
        byte "two words", "two words", word "zz"
        call #:q1
:q1 nop
q2 nop
:q1_ret ret
        word "c", "c", "'{}", word "zz"
        word word "zz", "b", 0, "'{}"
