{{ A traffic light with a button for those on foot: a machine with five states. }}
CON
  _clkmode = xtal1 + pll16x
  _xinfreq = 5_000_000

  SECOND = 80_000                       ' clocks of a second in this model, which runs a thousand times faster

  BUTTON = 4                            ' high while it is pressed
  #0, CARS, WARN, CLEAR, WALK, READY    ' the states

VAR
  long state
  long seconds                          ' since the state began
  byte pressed                          ' the button was pressed, and those on foot haven't gone yet

PUB main | tick
  dira[3..0]~~                          ' pins 0 to 2: red, yellow and green for cars; pin 3: walk
  tick := cnt
  repeat
    outa[3..0] := lights
    waitcnt(tick += SECOND)
    seconds++
    if ina[BUTTON]
      pressed~~
    advance

PRI lights : pins
'' What is on in this state: walk, green, yellow and red, from the highest bit to the lowest.
  case state
    CARS:  pins := %0100
    WARN:  pins := %0010
    CLEAR: pins := %0001
    WALK:  pins := %1001
    READY: pins := %0011

PRI advance
'' Goes on to another state where it is time to.
  case state
    CARS:
      if pressed
        after(5, WARN)                  ' cars have green for five seconds at least
    WARN:
      after(2, CLEAR)
    CLEAR:
      after(1, WALK)
    WALK:
      pressed~                          ' who presses now goes at once
      after(4, READY)
    READY:
      after(1, CARS)

PRI after(length, next_state)
'' Goes on to the next state once this one has lasted so many seconds.
  if seconds => length
    state := next_state
    seconds~
