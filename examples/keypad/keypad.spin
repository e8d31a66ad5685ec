{{ Finds which key of a keypad is pressed. A key joins its row to its column. }}
CON
  _clkmode = xtal1 + pll16x
  _xinfreq = 5_000_000

  SETTLE = 2_000                        ' clocks that a column gets to follow its row

VAR
  byte key                              ' the character on the key

PUB main
  dira[3..0]~~                          ' pins 0 to 3 drive the rows; 4 to 6 read the columns
  repeat until key := scan

PRI scan : character | row, columns
'' The character on a key that is pressed, or 0.
  repeat row from 0 to 3
    outa[3..0] := |< row                ' one row is high, the others are low
    waitcnt(cnt + SETTLE)
    if columns := ina[6..4]
      return keys[row * 3 + >| columns - 1]

DAT
keys  byte  "123"
      byte  "456"
      byte  "789"
      byte  "*0#"
