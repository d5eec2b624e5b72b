# The types that the ports and the components of this folder share.

@ Names a command in a deployment
type FwOpcodeType = U32

@ Names an event in a deployment
type FwEventIdType = U32

@ Names a telemetry channel in a deployment
type FwChanIdType = U32

@ Names a parameter in a deployment
type FwPrmIdType = U32

module Fw {

  @ The arguments of a command, as bytes
  type CmdArgBuffer

  @ A packet from the ground or for it
  type ComBuffer

  @ Memory that is handed on
  type Buffer

  @ The arguments of an event, as bytes
  type LogBuffer

  @ The value of a telemetry channel, as bytes
  type TlmBuffer

  @ The value of a parameter, as bytes
  type ParamBuffer

  @ A point in time
  struct Time {
    seconds: U32
    useconds: U32 @< Millionths of a second
  }

  @ An event as it is read by people
  type TextLogString = string size 256

  enum Enabled: U8 {
    DISABLED = 0 @< It does nothing
    ENABLED = 1 @< It does its work
  } default Enabled.DISABLED

  @ How a command ended
  enum CmdResponse {
    OK = 0
    INVALID_OPCODE = 1
    VALIDATION_ERROR = 2
    FORMAT_ERROR = 3
    EXECUTION_ERROR = 4
    BUSY = 5
  }

  enum LogSeverity {
    FATAL = 1
    WARNING_HI = 2
    WARNING_LO = 3
    COMMAND = 4
    ACTIVITY_HI = 5
    ACTIVITY_LO = 6
    DIAGNOSTIC = 7
  }

  enum ParamValid { UNINIT, VALID, INVALID, DEFAULT }

  @ Why bytes are no value
  enum DeserialStatus {
    OK = 0
    BUFFER_EMPTY = 3
    FORMAT_ERROR = 4
    SIZE_MISMATCH = 5
    TYPE_MISMATCH = 6
  }

}
