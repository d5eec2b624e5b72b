# The services that store and send what the other components say: events, telemetry, parameters, and what time it is.

@ Events from some severity on
enum FilterSeverity: U8 {
  WARNING_HI = 0
  WARNING_LO = 1
  COMMAND = 2
  ACTIVITY_HI = 3
  ACTIVITY_LO = 4
  DIAGNOSTIC = 5
}

@ Filters events, and packs those that are left for the ground
active component EventLogger {

  @ Events as bytes
  async input port LogRecv: Fw.Log priority 2 drop

  @ Events as they are read by people
  sync input port TextRecv: Fw.LogText

  output port PktSend: Fw.Com

  import Pinged
  import Fw.Command
  import Fw.Reporting

  @ Sends events of one severity, or leaves them out
  async command SET_EVENT_FILTER(
                                  filterLevel: FilterSeverity
                                  filterEnabled: Fw.Enabled
                                ) \
    opcode 0

  async command DUMP_FILTER_STATE opcode 2

  event SEVERITY_FILTER_STATE($severity: FilterSeverity, enabled: Fw.Enabled) \
    severity activity low id 0 \
    format "{} filter state: {}"

  telemetry EventsDropped: U32 id 0 update on change high { yellow 1, red 100 }

}

@ Keeps the last value of each channel, and packs those that have changed
active component TelemetryChunks {

  guarded input port TlmRecv: Fw.Tlm

  @ Packs what has changed
  async input port Run: Sched drop

  output port PktSend: Fw.Com

  import Pinged

}

@ Keeps the values of parameters
active component ParameterDatabase {

  guarded input port getPrm: Fw.PrmGet

  async input port setPrm: Fw.PrmSet

  import Pinged
  import Fw.Command
  import Fw.Reporting

  @ Writes all values to the file that is read at the start
  async command PRM_SAVE_FILE

  event PrmIdNotFound(Id: FwPrmIdType) severity warning low id 0 format "Parameter ID 0x{x} not found" throttle 20

  event PrmFileSaveComplete(records: U32) severity activity high id 1 format "Parameter file save completed. Wrote {} records."

}

@ Tells the time of the board
passive component TimeSource {

  sync input port timeGetPort: Fw.Time

}
