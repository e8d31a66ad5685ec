CON
  K = 191
DAT
q0 mov q0, #:l0
:l0 nop
:l1 jmp #:l1
: l2 long :l2, @:l0
here_1 mov here_1, #:l0
: l0 djnz here_1, #:l0
PUB main
PRI two
