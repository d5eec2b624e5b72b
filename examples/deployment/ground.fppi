# The way to the ground, as a part of a topology.

connections Ground {
  radio.commandOut -> commands.seqCmdBuff[0]
  commands.seqCmdStatus[0] -> radio.commandStatus
  events.PktSend -> radio.packetIn[0]
  channels.PktSend -> radio.packetIn[1]
}
