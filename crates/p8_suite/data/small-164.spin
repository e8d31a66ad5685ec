' a file
OBJ
PUB main
  a := K
  one(a)
PRI one(n)
  return n + 1
DAT
t       long 5
  byte 1, 2
  long 3
PUB q1
  if 1
   if 1
    if 1
     if 1
      if 1
       if 1
        if 1
         if 1
          if 1
           if 1
            if 1
             if 1
              if 1
               if 1
                if 1
                 if 1
                  if 1
                   if 1
                    if 1
                     if 1
                      if 1
                       if 1
                        if 1
                         if 1
                          if 1
                           if 1
                            if 1
                             if 1
                              if 1
                               if 1
                                if 1
                                 if 1
                                  if 1
                                   if 1
                                    if 1
                                     if 1
                                      if 1
                                       if 1
                                        if 1
                                         if 1
                                          if 1
                                           if 1
                                            if 1
                                             if 1
                                              if 1
                                               if 1
                                                if 1
                                                 if 1
                                                  if 1
                                                   if 1
                                                    if 1
                                                     if 1
                                                      if 1
                                                       if 1
                                                        if 1
                                                         if 1
                                                          if 1
                                                           if 1
                                                            if 1
                                                             if 1
                                                              if 1
                                                               if 1
                                                                if 1
                                                                 if 1
                                                                  a++
VAR
  long a
  word pad9[100]
  word far
CON
  K = 57
  K2 = K + 1