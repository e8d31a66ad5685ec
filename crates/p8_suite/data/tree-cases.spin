PUB main
  case 1
    2: main
      main
    3..4, 5:
           main
    other:
      main
  main
