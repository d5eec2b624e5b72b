# The health monitor: pings components, and strokes the watchdog as long as all of them answer.

module Svc {

  @ How many components may be pinged
  constant PINGED_COMPONENTS = 25

  @ Watches whether components are alive
  queued component Health {

    @ Names a component that is pinged
    type EntryName = string size 40

    @ Pings, each to another component
    output port PingSend: [PINGED_COMPONENTS] Ping

    @ Their answers
    async input port PingReturn: [PINGED_COMPONENTS] Ping

    match PingSend with PingReturn

    @ Works off the queue, and counts the time that answers take
    sync input port Run: Sched

    output port WdogStroke: WatchDog

    import Fw.Command
    import Fw.Reporting

    @ Whether anything is pinged
    async command HLTH_ENABLE(enable: Fw.Enabled) opcode 0x0

    @ Whether one component is pinged
    async command HLTH_PING_ENABLE($entry: EntryName, enable: Fw.Enabled) opcode 0x1

    @ How long a component may take to answer
    async command HLTH_CHNG_PING(
                                  $entry: EntryName
                                  warningValue: U32 @< Beats to a warning
                                  fatalValue: U32 @< Beats to the end
                                )

    event HLTH_PING_WARN($entry: EntryName) \
      severity warning high id 0 \
      format "Ping entry {} late warning"

    event HLTH_PING_LATE($entry: EntryName) \
      severity fatal id 1 \
      format "Ping entry {} did not respond"

    event HLTH_PING_WRONG_KEY($entry: EntryName, badKey: U32) \
      severity fatal \
      format "Ping entry {} responded with wrong key 0x{x}"

    event HLTH_CHECK_ENABLE(enabled: Fw.Enabled) \
      severity activity high \
      format "Health checking set to {}"

    event HLTH_CHECK_PING(enabled: Fw.Enabled, $entry: EntryName) \
      severity activity high \
      format "Health checking set to {} for {}"

    event HLTH_CHECK_LOOKUP_ERROR($entry: EntryName) \
      severity warning low \
      format "Couldn't find entry \"{}\"" \
      throttle 5

    event HLTH_PING_UPDATED($entry: EntryName, warn: U32, $fatal: U32) \
      severity activity high id 0x10 \
      format "Health ping for {} changed to WARN {} FATAL {}"

    event HLTH_PING_INVALID_VALUES($entry: EntryName, warn: U32, $fatal: U32) \
      severity warning high \
      format "Health ping for {} invalid values: WARN {} FATAL {}"

    telemetry PingLateWarnings: U32 id 0

  }

}
