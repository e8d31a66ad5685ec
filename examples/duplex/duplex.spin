{{ A serial line that sends and receives at the same time. A cog in PASM does both, with a buffer for each way. }}
CON
  SIZE = 16                             ' bytes of each buffer, a power of 2

VAR
  long rx_head, rx_tail                 ' places in the buffers: bytes are put in at the head and taken out at the tail
  long tx_head, tx_tail
  byte rx_buffer[SIZE], tx_buffer[SIZE]

PUB start(rx_pin, tx_pin, baud) : okay
'' Starts the driver. Answers 0 where all cogs run.
  longfill(@rx_head, 0, 4)
  rx_mask := |< rx_pin                  ' the driver's own longs, which its cog takes along when it loads
  tx_mask := |< tx_pin
  bit_time := clkfreq / baud
  rx_head_at := @rx_head
  tx_head_at := @tx_head
  tx_tail_at := @tx_tail
  rx_buffer_at := @rx_buffer
  tx_buffer_at := @tx_buffer
  okay := cognew(@receive, 0) + 1

PUB rx : data
'' Waits for a byte and takes it.
  repeat while rx_tail == rx_head
  data := rx_buffer[rx_tail]
  rx_tail := (rx_tail + 1) & (SIZE - 1)

PUB tx(data)
'' Gives a byte to be sent. Waits only where the buffer is full.
  repeat while (tx_head + 1) & (SIZE - 1) == tx_tail
  tx_buffer[tx_head] := data
  tx_head := (tx_head + 1) & (SIZE - 1)

DAT
              org     0
receive       or      outa, tx_mask             ' a line on which nothing is sent is high
              or      dira, tx_mask

:idle         jmpret  receiver, sender          ' let the other half run; it comes back here
              test    rx_mask, ina wc
        if_c  jmp     #:idle                    ' high: no start bit yet
              mov     rx_bits, #9
              mov     rx_time, bit_time
              shr     rx_time, #1
              add     rx_time, cnt              ' the middle of the start bit
:next_bit     add     rx_time, bit_time
:wait         jmpret  receiver, sender
              mov     left, rx_time
              sub     left, cnt
              cmps    left, #1 wc
        if_nc jmp     #:wait
              test    rx_mask, ina wc
              rcr     rx_data, #1
              djnz    rx_bits, #:next_bit
        if_nc jmp     #:idle                    ' the stop bit is low: that was no byte

              shr     rx_data, #32 - 9
              rdlong  place, rx_head_at
              add     place, rx_buffer_at
              wrbyte  rx_data, place
              sub     place, rx_buffer_at
              add     place, #1
              and     place, #SIZE - 1
              wrlong  place, rx_head_at
              jmp     #:idle

send          jmpret  sender, receiver
              rdlong  tx_place, tx_tail_at
              rdlong  tx_data, tx_head_at
              cmp     tx_data, tx_place wz
        if_z  jmp     #send                     ' nothing to send
              add     tx_place, tx_buffer_at
              rdbyte  tx_data, tx_place
              sub     tx_place, tx_buffer_at
              add     tx_place, #1
              and     tx_place, #SIZE - 1
              wrlong  tx_place, tx_tail_at

              or      tx_data, #$100            ' the stop bit
              shl     tx_data, #1               ' the start bit
              mov     tx_bits, #10
              mov     tx_time, cnt
:next_bit     shr     tx_data, #1 wc
              muxc    outa, tx_mask
              add     tx_time, bit_time
:wait         jmpret  sender, receiver
              mov     left, tx_time
              sub     left, cnt
              cmps    left, #1 wc
        if_nc jmp     #:wait
              djnz    tx_bits, #:next_bit
              jmp     #send

sender        long    send                      ' where each half goes on
receiver      long    0
rx_mask       long    0
tx_mask       long    0
bit_time      long    0
rx_head_at    long    0
tx_head_at    long    0
tx_tail_at    long    0
rx_buffer_at  long    0
tx_buffer_at  long    0
rx_data       res     1
rx_bits       res     1
rx_time       res     1
tx_data       res     1
tx_bits       res     1
tx_time       res     1
tx_place      res     1
place         res     1
left          res     1
              fit
