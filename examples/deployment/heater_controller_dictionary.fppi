# The commands, parameters, events and channels of the heater controller.

@ Begins or ends to keep the temperature
async command CONTROL_ENABLE(enable: Fw.Enabled) opcode 0

@ The temperature that is kept
param SETPOINT: Temperature default 29315 id 0 set opcode 0x10 save opcode 0x11

@ How far a reading may be from it
param BAND: Temperature default 150 id 1 set opcode 0x12 save opcode 0x13

@ The sensors that count
param SENSORS_IN_USE: U8 default SENSORS id 2 set opcode 0x14 save opcode 0x15

event ControlEnabled(enable: Fw.Enabled) severity activity high id 0 format "Thermal control is {}"

event HeaterFailed(heater: U8, milliamperes: U16) severity warning high id 1 format "Heater {} draws {} mA"

event ReadingRefused(reading: Temperature) severity warning low id 2 format "Reading of {d} cK refused" throttle 10

telemetry HeatingCycles: U32 id 0 update on change

telemetry Kept: Temperature id 1 format "{} cK" low { yellow 28000, red 27300 } high { yellow 31000, red 32000 }
