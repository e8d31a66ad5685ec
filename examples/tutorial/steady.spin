CON
  _clkmode = xtal1 + pll16x
  _xinfreq = 5_000_000

PUB main
  cognew(@blink, 0)

DAT
          org     0
blink     mov     dira, led             ' pin 4 is an output
          mov     moment, cnt
          add     moment, half
:again    waitcnt moment, half          ' wait for MOMENT, then add HALF to it
          xor     outa, led             ' turn the LED on, or off
          jmp     #:again

led       long    1 << 4
half      long    80_000                ' clocks: a millisecond
moment    res     1
