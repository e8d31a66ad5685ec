VAR
  long count
  long first[8], second[8]              ' stacks

PUB main
  cognew(count_up, @first)
  cognew(count_up, @second)

PRI count_up
  repeat 5
    count := count + 1
