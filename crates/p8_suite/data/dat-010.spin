CON
  K = 184
DAT
tab0 mov tab0, #:l0
:l0 jmp #:l0
q1 mov q1, #:l2
:l0 long :l0, @:l2
: l1 jmp #:l1
:l2 long :l2, @:l2
here_2 mov here_2, #:l2
: l0 long :l0, @:l0
:l1 long :l1, @:l0
:l2 djnz here_2, #:l0
PUB main
PRI two
