CON
  _clkmode = xtal1 + pll16x
  _xinfreq = 5_000_000

  LED   = 4
  RATE  = 8                             ' how often the LED lights up in a second
  DEBUG = 0                             ' 1: each turn of the LED is also told on the next pin

PUB main | moment
  dira[LED]~~
  if DEBUG
    dira[LED + 1]~~
  moment := cnt
  repeat while TRUE
    !outa[LED]
    if DEBUG
      !outa[LED + 1]
    waitcnt(moment += 80_000_000 / (2 * RATE))
