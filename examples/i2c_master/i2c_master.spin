{{ A master of an I2C bus, in PASM, in a cog of its own. It reads words of 16 bits from the registers of devices.

Both lines are driven low or let go: then a resistor holds them high, or a device holds them low. }}
VAR
  long mailbox                          ' bit 16, the device's address and the register; 0 where the answer is there
  long answer                           ' ANSWER follows MAILBOX: the driver counts on it

PUB start(scl_pin, sda_pin, rate) : okay
'' Starts the driver for a bus with at most this rate, in hertz. Answers 0 where all cogs run.
  scl := |< scl_pin                     ' the driver's own longs, which its cog takes along when it loads
  sda := |< sda_pin
  half_time := clkfreq / rate / 2
  mailbox := 0
  okay := cognew(@driver, @mailbox) + 1

PUB read(device, register)
'' The word in a register of a device, or -1 where no device has this address.
  mailbox := 1 << 16 | device << 8 | register
  repeat while mailbox
  return answer

DAT
              org     0
driver        rdlong  asked, par wz             ' PAR is the address of MAILBOX
        if_z  jmp     #driver
              mov     address, asked
              shr     address, #8
              shl     address, #1               ' the lowest bit is 0: the register's number comes
              neg     word_read, #1
              call    #begin
              mov     data, address
              call    #put
        if_nz jmp     #:done                    ' nobody took it
              mov     data, asked
              call    #put
              call    #begin
              mov     data, address
              or      data, #1                  ' now the device is to answer
              call    #put
              mov     data, #%1_1111_1110       ' eight bits are let go; the ninth, 0, asks for one more byte
              call    #exchange
              mov     word_read, data
              shr     word_read, #1
              mov     data, #%1_1111_1111       ' the ninth, 1, says that no other is wanted
              call    #exchange
              shl     word_read, #8
              shr     data, #1
              or      word_read, data
:done         call    #finish
              mov     address, par
              add     address, #4
              wrlong  word_read, address
              mov     asked, #0
              wrlong  asked, par
              jmp     #driver

put           shl     data, #1                  ' sends a byte; Z is whether a device took it and held the ninth bit low
              or      data, #1
              call    #exchange
              test    data, #1 wz
put_ret       ret

exchange      shl     data, #32 - 9             ' sends nine bits, the highest first; then DATA is what the line had
              mov     bits, #9
:next_bit     shl     data, #1 wc
              muxnc   dira, sda                 ' a 0 is driven, a 1 is let go
              call    #half
              test    scl, #0 wc                ' clears C, with which WAITPEQ would look at port B
              andn    dira, scl                 ' the clock rises,
              waitpeq scl, scl                  ' unless the device holds it low: it needs more time
              call    #half
              test    sda, ina wc
              muxc    data, #1
              or      dira, scl                 ' the clock falls
              djnz    bits, #:next_bit
exchange_ret  ret

begin         andn    dira, sda                 ' the data falls while the clock is high
              call    #half
              andn    dira, scl
              call    #half
              or      dira, sda
              call    #half
              or      dira, scl
begin_ret     ret

finish        or      dira, sda                 ' the data rises while the clock is high
              call    #half
              andn    dira, scl
              call    #half
              andn    dira, sda
              call    #half
finish_ret    ret

half          mov     time, cnt                 ' waits for half a bit
              add     time, half_time
              waitcnt time, #0
half_ret      ret

scl           long    0
sda           long    0
half_time     long    0
asked         res     1
address       res     1
word_read     res     1
data          res     1
bits          res     1
time          res     1
              fit
