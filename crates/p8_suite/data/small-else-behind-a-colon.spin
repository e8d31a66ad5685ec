PUB main
  case 1
    1: else
