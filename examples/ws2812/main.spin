{{ Shows red, orange and blue on three LEDs of the kind WS2812, on pin 2. }}
CON
  _clkmode = xtal1 + pll16x
  _xinfreq = 5_000_000

  ROW  = 2
  LEDS = 3

OBJ
  strip : "ws2812"

VAR
  long colours[LEDS]                    ' $00_GG_RR_BB

PUB main
  colours[0] := $00_FF_00
  colours[1] := $40_80_00
  colours[2] := $00_00_A5
  strip.start(ROW, LEDS)
  strip.show(@colours)
