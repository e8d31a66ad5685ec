CON
  _clkmode = xtal1 + pll16x
  _xinfreq = 5_000_000

  TX       = 30
  BIT_TIME = 80_000_000 / 9_600         ' clocks of a bit at 9,600 baud

PUB main
  outa[TX]~~                            ' a line on which nothing is sent is high
  dira[TX]~~
  say(string("Hello"))
  repeat                                ' a cog that ends lets go of its pins

PRI say(text)
  repeat strsize(text)
    send(byte[text++])

PRI send(data) | moment
  data := data << 1 | %10_0000_0000     ' a start bit, 0, before the lowest bit; a stop bit, 1, after the highest
  moment := cnt
  repeat 10
    outa[TX] := data                    ' the lowest bit
    data >>= 1
    waitcnt(moment += BIT_TIME)
