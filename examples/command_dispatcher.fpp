# The command dispatcher: hands each command to the component that has registered its opcode, and tells who has sent it how it ended.

module Svc {

  @ How many components may take commands
  constant DISPATCHED_COMPONENTS = 30

  @ How many components may send commands
  constant COMMAND_SOURCES = 5

  @ Dispatches commands
  active component CommandDispatcher {

    # ----------------------------------------------------------------------
    # General ports
    # ----------------------------------------------------------------------

    @ Commands for components
    output port compCmdSend: [DISPATCHED_COMPONENTS] Fw.Cmd

    @ The opcodes of components
    guarded input port compCmdReg: [DISPATCHED_COMPONENTS] Fw.CmdReg

    match compCmdSend with compCmdReg

    @ How commands ended
    async input port compCmdStat: Fw.CmdResponse priority 5

    @ Commands as they come in
    async input port seqCmdBuff: [COMMAND_SOURCES] Fw.Com

    @ How a command ended, for who has sent it
    output port seqCmdStatus: [COMMAND_SOURCES] Fw.CmdResponse

    import Pinged

    # ----------------------------------------------------------------------
    # Special ports
    # ----------------------------------------------------------------------

    import Fw.Command
    import Fw.Reporting

    # ----------------------------------------------------------------------
    # Commands
    # ----------------------------------------------------------------------

    @ Reports that it was received, and does nothing
    async command CMD_NO_OP opcode 0

    @ As CMD_NO_OP, with a text
    async command CMD_NO_OP_STRING(
                                    arg1: string size 40 @< The text that is reported
                                  ) \
      opcode 1

    async command CMD_TEST_CMD_1(arg1: I32, arg2: I16, arg3: U8) opcode 2

    @ Forgets the commands that haven't ended
    async command CMD_CLEAR_TRACKING opcode 3 priority 10 assert

    # ----------------------------------------------------------------------
    # Events
    # ----------------------------------------------------------------------

    event OpCodeRegistered(
                            Opcode: FwOpcodeType
                            $port: I32 @< Where it was registered
                            slot: I32
                          ) \
      severity diagnostic \
      id 0 \
      format "Opcode 0x{x} registered to port {} slot {}"

    event OpCodeDispatched(Opcode: FwOpcodeType, $port: I32) \
      severity command \
      id 1 \
      format "Opcode 0x{x} dispatched to port {}"

    event OpCodeCompleted(Opcode: FwOpcodeType) \
      severity command \
      id 2 \
      format "Opcode 0x{x} completed"

    event OpCodeError(Opcode: FwOpcodeType, error: Fw.CmdResponse) \
      severity command \
      id 3 \
      format "Opcode 0x{x} completed with error {}"

    event MalformedCommand(Status: Fw.DeserialStatus) \
      severity warning high \
      id 4 \
      format "Received malformed command packet. Status: {}"

    event InvalidCommand(Opcode: FwOpcodeType) \
      severity warning high \
      id 5 \
      format "Invalid opcode 0x{x} received"

    event TooManyCommands(Opcode: FwOpcodeType) \
      severity warning high \
      id 6 \
      format "Too many outstanding commands. opcode=0x{x}" \
      throttle 10

    event NoOpReceived \
      severity activity high \
      id 7 \
      format "Received a NO-OP command"

    event NoOpStringReceived(message: string size 40) \
      severity activity high \
      id 8 \
      format "Received a NO-OP string={}"

    event TestCmd1Args(arg1: I32, arg2: I16, arg3: U8) \
      severity activity high \
      id 9 \
      format "TEST_CMD_1 args: I32: {}, I16: {}, U8: {}"

    event OpCodeReregistered(Opcode: FwOpcodeType, $port: I32) \
      severity diagnostic \
      id 10 \
      format "Opcode 0x{x} is already registered to port {}"

    # ----------------------------------------------------------------------
    # Telemetry
    # ----------------------------------------------------------------------

    telemetry CommandsDispatched: U32 id 0 update on change

    telemetry CommandErrors: U32 id 1 update on change high { yellow 10, orange 100, red 1000 }

  }

}
