{{ Runs a motor on pin 8 faster and faster: on for a quarter, a half, three quarters of each 20,000th of a second. }}
CON
  _clkmode = xtal1 + pll16x
  _xinfreq = 5_000_000

  MOTOR  = 8
  PERIOD = 80_000_000 / 20_000          ' clocks

OBJ
  pwm : "pwm"

PUB main | quarters
  pwm.start(MOTOR, PERIOD)
  repeat quarters from 1 to 3
    waitcnt(3 * PERIOD + cnt)
    pwm.set(PERIOD * quarters / 4)
