{{ An LED that is turned on and off by a cog, a thousand times a second. }}
VAR
  long stack[8]

PUB start(pin) : ok
'' Starts the cog for the LED on this pin. Answers the number of the cog and 1, or 0 where all cogs run.
  ok := cognew(run(pin), @stack) + 1

PRI run(pin)
  dira[pin]~~
  repeat
    !outa[pin]
    waitcnt(clkfreq / 1000 + cnt)
