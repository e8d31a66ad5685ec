PUB main | i
  repeat
    next
  until 1
      main
  repeat
  while 0
  repeat 2
  repeat while 1
    main
  repeat until 0
  repeat i from 0 to 9 step 3
