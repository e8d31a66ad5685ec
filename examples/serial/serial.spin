{{ Sends the bytes of "Hi" on pin 0, as a serial line has them: a start bit, eight bits, a stop bit. }}
CON
  _clkmode = xtal1 + pll16x
  _xinfreq = 5_000_000

  TX       = 0
  BAUD     = 19_200
  BIT_TIME = 80_000_000 / BAUD          ' in clocks

PUB main
  outa[TX]~~                            ' a line on which nothing is sent is high
  dira[TX]~~
  send("H")
  send("i")

PRI send(data) | edge
'' Sends one byte, its lowest bit first.
  data := data << 1 | %10_0000_0000     ' a start bit, which is low, before it; a stop bit, which is high, after it
  edge := cnt
  repeat 10
    outa[TX] := data                    ' a pin takes the lowest bit of what is assigned
    data >>= 1
    waitcnt(edge += BIT_TIME)           ' counted from the edge before, so that no delay adds up
