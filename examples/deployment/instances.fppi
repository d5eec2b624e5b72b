# The instances. Each has the ids from its base id on; active ones have a queue, and those with a deadline a priority.

@ How many calls may wait at an instance
enum QueueSize {
  SHORT = 5
  USUAL = 10
  LONG = 50
}

@ Of threads
enum Priority {
  LOW = 80
  USUAL = 100
  HIGH = 120
}

constant STACK_SIZE = 64 * 1024

# ----------------------------------------------------------------------
# Passive and queued
# ----------------------------------------------------------------------

instance rateGroupDriver: Svc.RateGroupDriver base id 0x100 {
  phase configuration """
    rateGroupDriver.configure({1, 2, 4});
    """
}

instance timeSource: Svc.TimeSource base id 0x200

instance radio: Drv.Radio base id 0x300 type "Drv::UartRadio" at "../../Drv/UartRadio.hpp"

instance $health: Svc.Health base id 0x400 queue size QueueSize.LONG

instance sensors: Thermal.SensorDriver base id 0x500

instance heaterA: Thermal.Heater base id 0x600

instance heaterB: Thermal.Heater base id 0x700

# ----------------------------------------------------------------------
# Active
# ----------------------------------------------------------------------

instance board: Drv.Board base id 0x1000 \
  queue size QueueSize.SHORT \
  stack size STACK_SIZE \
  priority Priority.HIGH + 20

instance fastRateGroup: Svc.ActiveRateGroup base id 0x1100 \
  queue size QueueSize.USUAL \
  stack size STACK_SIZE \
  priority Priority.HIGH

instance slowRateGroup: Svc.ActiveRateGroup base id 0x1200 \
  queue size QueueSize.USUAL \
  stack size STACK_SIZE \
  priority Priority.HIGH - 1

instance commands: Svc.CommandDispatcher base id 0x1300 \
  queue size QueueSize.LONG \
  stack size STACK_SIZE \
  priority Priority.USUAL + 1

instance events: Svc.EventLogger base id 0x1400 \
  queue size QueueSize.LONG \
  stack size STACK_SIZE \
  priority Priority.USUAL

instance channels: Svc.TelemetryChunks base id 0x1500 \
  queue size QueueSize.USUAL \
  stack size STACK_SIZE \
  priority Priority.LOW

instance parameters: Svc.ParameterDatabase base id 0x1600 \
  queue size QueueSize.USUAL \
  stack size STACK_SIZE \
  priority Priority.LOW cpu 1

instance controller: Thermal.HeaterController base id 0x1700 \
  queue size QueueSize.USUAL \
  stack size 2 * STACK_SIZE \
  priority Priority.USUAL + 10
