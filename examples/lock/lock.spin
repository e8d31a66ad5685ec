{{ Two cogs write into one buffer. A lock keeps them from taking the same place. }}
CON
  EACH = 3                              ' how many bytes each cog writes

VAR
  long used                             ' how many bytes of the buffer are written
  long lock
  long first_stack[16], second_stack[16]
  byte buffer[2 * EACH]

PUB main
  lock := locknew
  cognew(write, @first_stack)
  cognew(write, @second_stack)

PRI write
'' Writes the number of its cog, several times.
  repeat EACH
    repeat while lockset(lock)          ' answers whether the lock was set: then the other cog has it
    buffer[used++] := cogid             ' USED is read and written: nobody else may do so in between
    lockclr(lock)
