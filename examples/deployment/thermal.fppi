# The thermal control: sensors, the controller, heaters.

constant SENSORS = 2

constant HEATERS = 2

@ In hundredths of a kelvin
type Temperature = U16

array Temperatures = [SENSORS] Temperature default 29315 format "{} cK"

enum Heating: U8 { OFF = 0, ON = 1 }

@ What the sensors have read in one cycle
struct Readings {
  cycle: U32
  values: Temperatures
  isValid: [SENSORS] bool
} default { isValid = [true, true] }

port ReadingsSend(ref readings: Readings)

port Switch(heating: Heating)

port HeaterStatus(heating: Heating, milliamperes: U16)

@ Reads the sensors
passive component SensorDriver {

  sync input port schedIn: Svc.Sched

  output port readingsOut: ReadingsSend

  import Fw.Reporting

  event SensorOutOfRange(sensor: U8, raw: U16) \
    severity warning low \
    format "Sensor {} reads 0x{x}" \
    throttle SENSORS * 5

  telemetry LastReadings: Readings update on change

}

@ Drives one heater
passive component Heater {

  guarded input port switchIn: Switch

  output port statusOut: HeaterStatus

  import Fw.Command
  import Fw.Reporting

  @ Drives the heater whatever the controller says
  guarded command HEATER_OVERRIDE(heating: Heating)

  @ Listens to the controller again
  guarded command HEATER_RELEASE

  event HeaterOverridden(heating: Heating) severity activity high format "Heater is {} by command"

  telemetry Current: U16 format "{} mA" high { red 2000 }

}
