CON
  _clkmode = xtal1 + pll16x
  _xinfreq = 5_000_000

VAR
  long pause                            ' the mailbox: clocks from one turn of the LED to the next

PUB main
  pause := 20_000
  cognew(@blink, @pause)                ' PAR of the new cog is the address of PAUSE
  waitcnt(100_000 + cnt)
  pause := 40_000

DAT
          org     0
blink     mov     dira, led
          mov     moment, cnt
:again    rdlong  clocks, par           ' look into the mailbox
          add     moment, clocks
          waitcnt moment, #0
          xor     outa, led
          jmp     #:again

led       long    1 << 4
moment    res     1
clocks    res     1
