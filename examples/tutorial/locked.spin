VAR
  long count
  long lock
  long first[8], second[8]              ' stacks

PUB main
  lock := locknew
  cognew(count_up, @first)
  cognew(count_up, @second)

PRI count_up
  repeat 5
    repeat while lockset(lock)          ' it was set: the other cog has it
    count := count + 1
    lockclr(lock)
