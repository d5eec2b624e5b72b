# The topologies: the services by themselves, and the vehicle, which is these and the thermal control.

@ The outputs of the rate group driver
enum RateGroup { FAST, MIDDLE, SLOW }

@ What each deployment has
topology Services {

  # ----------------------------------------------------------------------
  # Instances
  # ----------------------------------------------------------------------

  instance board
  instance rateGroupDriver
  instance fastRateGroup
  instance slowRateGroup
  instance commands
  instance events
  instance channels
  instance parameters
  instance $health
  instance timeSource
  private instance radio

  # ----------------------------------------------------------------------
  # What is joined by its kind
  # ----------------------------------------------------------------------

  command connections instance commands
  event connections instance events
  text event connections instance events
  telemetry connections instance channels
  time connections instance timeSource
  health connections instance $health

  # ----------------------------------------------------------------------
  # What is joined one by one
  # ----------------------------------------------------------------------

  connections Ticks {
    board.CycleOut -> rateGroupDriver.CycleIn
    rateGroupDriver.CycleOut[RateGroup.FAST] -> fastRateGroup.CycleIn
    rateGroupDriver.CycleOut[RateGroup.SLOW] -> slowRateGroup.CycleIn
    $health.WdogStroke -> board.WdogStroke
  }

  @ The last members of the slow rate group; the numbers below are free for the vehicle
  connections SlowRateGroup {
    slowRateGroup.RateGroupMemberOut[Svc.RATE_GROUP_MEMBERS - 2] -> channels.Run
    slowRateGroup.RateGroupMemberOut[Svc.RATE_GROUP_MEMBERS - 1] -> $health.Run
  }

  connections Ground {
    radio.commandOut -> commands.seqCmdBuff[1]
    commands.seqCmdStatus[1] -> radio.commandStatus
    events.PktSend -> radio.packetIn[0]
    channels.PktSend -> radio.packetIn[1]
  }

}

@ The vehicle: its radio is wired once more, since that of the services is their own
topology Vehicle {

  import Services

  instance sensors
  instance controller
  instance heaterA
  instance heaterB
  instance radio

  # the components that the services don't have; what is joined already stays
  command connections instance commands
  event connections instance events
  text event connections instance events
  telemetry connections instance channels
  time connections instance timeSource
  param connections instance parameters
  health connections instance $health { controller }

  connections FastRateGroup {
    fastRateGroup.RateGroupMemberOut[0] -> sensors.schedIn
    fastRateGroup.RateGroupMemberOut[1] -> controller.schedIn
  }

  connections Thermal {
    sensors.readingsOut -> controller.readingsIn
    controller.switchOut[0] -> heaterA.switchIn
    controller.switchOut[1] -> heaterB.switchIn
    # the numbers here are those of the switches
    heaterA.statusOut -> controller.statusIn
    heaterB.statusOut -> controller.statusIn
  }

  include "ground.fppi"

}
