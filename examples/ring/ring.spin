{{ A ring buffer between two cogs: one in PASM puts numbers in, one in Spin takes them out. Both count what is in it, so
a lock lets only one of them in at a time. }}
CON
  _clkmode = xtal1 + pll16x
  _xinfreq = 5_000_000

  SIZE = 4                              ' longs
  LAST = 10                             ' the producer puts in the numbers from 1 to this

VAR
  long lock                             ' LOCK, USED and RING stand in this order: the producer counts on it
  long used                             ' how many longs of the ring hold a number
  long ring[SIZE]
  long total                            ' the sum of what was taken out

PUB main | at, taken
  lock := locknew
  cognew(@producer, @lock)
  repeat
    taken := take(at)
    total += taken
    at := (at + 1) // SIZE
  until taken == LAST
  lockret(lock)

PRI take(at) : taken
'' Waits for a number and takes it from this place of the ring.
  repeat until taken
    repeat while lockset(lock)          ' the answer is whether it was set: then the producer is in
    if used
      taken := ring[at]
      used--
    lockclr(lock)

DAT
              org     0
producer      mov     pointer, par              ' PAR is the address of LOCK
              rdlong  key, pointer
              add     pointer, #4
              mov     used_at, pointer
              add     pointer, #4
              mov     ring_at, pointer

:put          lockset key wc                    ' C is whether it was set: then the consumer is in
        if_c  jmp     #:put
              rdlong  filled, used_at
              cmp     filled, #SIZE wz
        if_z  lockclr key                       ' full: let the consumer in
        if_z  jmp     #:put
              mov     pointer, place
              shl     pointer, #2
              add     pointer, ring_at
              wrlong  number, pointer
              add     filled, #1
              wrlong  filled, used_at
              lockclr key

              add     place, #1
              cmpsub  place, #SIZE              ' after the last place comes the first one
              add     number, #1
              cmp     number, #LAST + 1 wz
        if_nz jmp     #:put
              cogid   key
              cogstop key

number        long    1
place         long    0
pointer       res     1
key           res     1
used_at       res     1
ring_at       res     1
filled        res     1
              fit
