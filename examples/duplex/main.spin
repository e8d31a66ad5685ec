{{ Receives letters on pin 31, and sends each one back as a capital on pin 30 while the next one comes in. }}
CON
  _clkmode = xtal1 + pll16x
  _xinfreq = 5_000_000

OBJ
  line : "duplex"

PUB main
  line.start(31, 30, 230_400)
  repeat
    line.tx(capital(line.rx))

PRI capital(letter)
  if lookdown(letter: "a".."z")
    letter -= "a" - "A"
  return letter
