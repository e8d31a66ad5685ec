{{ Reads a byte from a device on an I2C bus. The clock is on pin 0, the data on pin 1. }}
CON
  _clkmode = xtal1 + pll16x
  _xinfreq = 5_000_000

  SCL  = 0
  SDA  = 1                              ' driven low, or let go: then a resistor holds it high, or the device low
  READ = $50 << 1 | 1                   ' the device's address, and that the device is to answer

VAR
  long answer                           ' the byte, or -1 where no device is there

PUB main
  outa[SCL]~~
  dira[SCL]~~
  dira[SDA]~~                           ' start: the data falls while the clock is high
  outa[SCL]~
  answer~~
  if put(READ)
    answer := get
  dira[SDA]~~                           ' stop: the data rises while the clock is high
  outa[SCL]~~
  dira[SDA]~

PRI put(data) : acknowledged
'' Sends a byte, its highest bit first. Answers whether a device took it.
  data <<= 24
  repeat 8
    dira[SDA] := !(data <-= 1)          ' a 0 is driven, a 1 is let go
    outa[SCL]~~
    outa[SCL]~
  dira[SDA]~
  outa[SCL]~~
  acknowledged := not ina[SDA]          ' a device that took the byte holds the data low
  outa[SCL]~

PRI get : data
'' Takes a byte. The data stays high after it: so the device knows that no other is wanted.
  repeat 8
    outa[SCL]~~
    data := data << 1 | ina[SDA]
    outa[SCL]~
  outa[SCL]~~
  outa[SCL]~
