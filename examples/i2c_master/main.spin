{{ Reads the temperature from a sensor of the kind LM75, on an I2C bus on the pins 0 and 1. }}
CON
  _clkmode = xtal1 + pll16x
  _xinfreq = 5_000_000

  SCL         = 0
  SDA         = 1
  SENSOR      = $48                     ' its address
  TEMPERATURE = 0                       ' its register: half degrees in the upper nine bits of a word

OBJ
  bus : "i2c_master"

VAR
  long tenths                           ' of a degree Celsius

PUB main | half_degrees
  bus.start(SCL, SDA, 400_000)
  half_degrees := bus.read(SENSOR, TEMPERATURE)
  ~~half_degrees                        ' the word has a sign
  half_degrees ~>= 7
  tenths := half_degrees * 5
