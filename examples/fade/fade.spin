{{ Makes an LED brighter: one cog switches it on and off, another one says for how long. }}
CON
  _clkmode = xtal1 + pll16x
  _xinfreq = 5_000_000

  LED    = 0
  PERIOD = 8_000                        ' clocks: the LED goes on 10,000 times a second

VAR
  long on_time                          ' clocks of each period for which the LED is on
  long stack[16]

PUB main | time
  on_time := 1_000
  cognew(pulse, @stack)
  repeat time from 1_000 to 7_000 step 2_000
    on_time := time                     ' ON_TIME doesn't count the loop: a loop leaves its variable at 9,000
    waitcnt(2 * PERIOD + cnt)

PRI pulse | edge
'' Never ends. An ON_TIME below 500 would be over before WAITCNT looks: it would then wait for 53 seconds.
  dira[LED]~~
  edge := cnt
  repeat
    outa[LED]~~
    waitcnt(edge + on_time)
    outa[LED]~
    waitcnt(edge += PERIOD)
