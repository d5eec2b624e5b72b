# Rate groups: what divides the ticks of the board, and what calls its members in turn.

@ When a tick came
type TimerVal

@ A tick
port Cycle(ref cycleStart: TimerVal)

constant RATE_GROUPS = 3

constant RATE_GROUP_MEMBERS = 10

@ Divides the ticks: each rate group gets every first, second, fourth one
passive component RateGroupDriver {

  sync input port CycleIn: Cycle

  output port CycleOut: [RATE_GROUPS] Cycle

}

@ Calls its members, one behind another, at each cycle that it gets
active component ActiveRateGroup {

  @ A cycle that comes while the last one goes on is a slip
  async input port CycleIn: Cycle priority 10 drop

  output port RateGroupMemberOut: [RATE_GROUP_MEMBERS] Sched

  import Pinged
  import Fw.Reporting

  event RateGroupStarted severity diagnostic id 0 format "Rate group started"

  event RateGroupCycleSlip(cycle: U32) \
    severity warning high id 1 \
    format "Rate group cycle slipped on cycle {}" \
    throttle 5

  telemetry RgMaxTime: U32 id 0 update on change format "{} us" high { yellow 100000 }

  telemetry RgCycleSlips: U32 id 1 update on change

}
