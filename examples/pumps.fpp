# Two pumps, and what is said of them.
include "units.fppi"

module Pumps {

  constant COUNT = 2

  @ How a pump is driven
  enum Mode : U8 {
    OFF @< Not driven
    AUTO @< Driven by the pressure behind it
    MANUAL @< Driven by command
  } default Mode.OFF

  @ The pressures that were read last, one for each pump
  array Pressures = [COUNT] Units.Pascals

  struct Report {
    mode: Mode
    pressures: Pressures
  }

  port Send(report: Report)

}
