{{ Blinks the LED on pin 4, in a cog of its own. }}
CON
  _clkmode = xtal1 + pll16x
  _xinfreq = 5_000_000

OBJ
  led : "blink"

PUB main
  led.start(5)
