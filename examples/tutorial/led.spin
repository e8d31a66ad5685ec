CON
  _clkmode = xtal1 + pll16x             ' a crystal of 5 MHz, 16 times as fast: 80 MHz
  _xinfreq = 5_000_000

PUB main
  dira[4]~~                             ' pin 4 is an output
  repeat
    !outa[4]                            ' turn the LED on, or off
    waitcnt(clkfreq / 2 + cnt)          ' wait for half a second
