{{ Colours for a row of WS2812 LEDs, which hang on one pin. A cog in PASM sends them.

Each LED takes 24 bits, green, red and blue, the highest bit first, and hands on the bits that follow. Its datasheet
wants a pin that is high for 0.35 us for a 0 and 0.7 us for a 1, then low for 0.8 us or 0.6 us, each give or take
0.15 us; 50 us of low end the row. }}
CON
  LIMIT = 64                            ' LEDs

VAR
  long mailbox                          ' the address of the colours, or 0 where the last ones are sent

PUB start(pin, length) : okay
'' Starts the driver for a row of this length, from 1 to LIMIT. Answers 0 where all cogs run.
  mask := |< pin                        ' the driver's own longs, which its cog takes along when it loads
  count := length
  mailbox := 0
  okay := cognew(@driver, @mailbox) + 1

PUB show(row)
'' Sends the row of colours at this address, a long $00_GG_RR_BB for each LED, and returns when they are on.
  mailbox := row
  repeat while mailbox

DAT
              org     0
driver        mov     dira, mask
idle          rdlong  address, par wz           ' PAR is the address of the mailbox
        if_z  jmp     #idle

              movd    fetch, #colours           ' first all colours come into the cog: RDLONG may wait too long
              mov     leds, count               ' between two bits
fetch         rdlong  0-0, address              ' its destination is the next of the COLOURS
              add     fetch, next_long
              add     address, #4
              djnz    leds, #fetch

              movs    :led, #colours
              mov     leds, count
              mov     edge, cnt
              add     edge, #40
:led          mov     colour, 0-0               ' its source is the next of the COLOURS
              mov     bits, #24
              shl     colour, #8
:bit          shl     colour, #1 wc
              mov     high, high_of_0
        if_c  mov     high, high_of_1
              waitcnt edge, high                ' wait for the rise; then EDGE is the time of the fall
              mov     outa, mask
              mov     low, period
              sub     low, high
              waitcnt edge, low                 ' wait for the fall; then EDGE is the time of the next rise
              mov     outa, #0
              djnz    bits, #:bit
              add     :led, #1
              djnz    leds, #:led

              waitcnt edge, pause               ' EDGE is now the end of the last bit
              waitcnt edge, #0
              mov     leds, #0
              wrlong  leds, par
              jmp     #idle

high_of_0     long    32                        ' clocks of 12.5 ns: 0.4 us, and 72 or 0.9 us of low
high_of_1     long    56                        ' 0.7 us, and 48 or 0.6 us of low
period        long    104                       ' 1.3 us
pause         long    4_800                     ' 60 us
next_long     long    1 << 9                    ' 1 in the field of the destination
mask          long    0
count         long    0
address       res     1
leds          res     1
edge          res     1
colour        res     1
bits          res     1
high          res     1
low           res     1
colours       res     LIMIT
              fit
