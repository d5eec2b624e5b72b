# The ports that the components of this folder have, and the interfaces by which they take them.

module Fw {

  # ----------------------------------------------------------------------
  # Of special ports
  # ----------------------------------------------------------------------

  @ A command for a component
  port Cmd(
    opCode: FwOpcodeType
    cmdSeq: U32 @< Known to who has sent the command
    ref args: CmdArgBuffer
  )

  port CmdReg(opCode: FwOpcodeType)

  port CmdResponse(opCode: FwOpcodeType, cmdSeq: U32, response: CmdResponse)

  port Log($id: FwEventIdType, ref timeTag: Time, $severity: LogSeverity, ref args: LogBuffer)

  port LogText($id: FwEventIdType, ref timeTag: Time, $severity: LogSeverity, ref $text: TextLogString)

  port Tlm($id: FwChanIdType, ref timeTag: Time, ref val: TlmBuffer)

  port Time(ref $time: Time)

  port PrmGet($id: FwPrmIdType, ref val: ParamBuffer) -> ParamValid

  port PrmSet($id: FwPrmIdType, ref val: ParamBuffer)

  # ----------------------------------------------------------------------
  # Of general ports
  # ----------------------------------------------------------------------

  port Com(ref data: ComBuffer, context: U32)

  port BufferGet($size: U32) -> Buffer

  port BufferSend(ref fwBuffer: Buffer)

  # ----------------------------------------------------------------------
  # Interfaces
  # ----------------------------------------------------------------------

  @ Takes commands
  interface Command {
    command recv port cmdIn
    command reg port cmdRegOut
    command resp port cmdResponseOut
  }

  @ Has events and telemetry channels
  interface Reporting {
    event port logOut
    text event port logTextOut
    telemetry port tlmOut
    time get port timeCaller
  }

  @ Has parameters, which commands set and save
  interface Parameters {
    import Command
    param get port prmGetOut
    param set port prmSetOut
  }

}

module Svc {

  @ A sign of life: who takes it sends it back
  port Ping(key: U32)

  @ A beat of the schedule
  port Sched(context: U32)

  port WatchDog(code: U32)

  @ Gives signs of life
  interface Pinged {
    @ Behind all that waits, so that an answer says that the queue is worked off
    async input port pingIn: Ping priority -10 drop
    output port pingOut: Ping
  }

}
