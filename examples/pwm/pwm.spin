{{ Pulses on a pin, of a width that may be changed while they go on. A cog in PASM makes them, exact to the clock. }}
CON
  LEAST = 60                            ' clocks that the driver needs between two edges

VAR
  long width                            ' clocks for which the pin is high: the driver reads it before each pulse

PUB start(pin, clocks) : okay
'' Starts pulses, one in each so many clocks, with the least width. Answers 0 where all cogs run.
  mask := |< pin                        ' the driver's own longs, which its cog takes along when it loads
  period := clocks
  set(0)
  okay := cognew(@driver, @width) + 1

PUB set(clocks)
'' Sets the width, in clocks. It counts from the next pulse on.
  width := LEAST #> clocks <# period - LEAST

DAT
              org     0
driver        mov     dira, mask
              mov     edge, cnt
              add     edge, period
:pulse        rdlong  high, par                 ' PAR is the address of WIDTH
              mov     low, period
              sub     low, high
              waitcnt edge, high                ' wait for the rise; then EDGE is the time of the fall
              mov     outa, mask
              waitcnt edge, low                 ' wait for the fall; then EDGE is the time of the next rise
              mov     outa, #0
              jmp     #:pulse

mask          long    0
period        long    0
edge          res     1
high          res     1
low           res     1
              fit
