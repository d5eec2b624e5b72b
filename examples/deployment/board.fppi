# The board: what ticks, what watches over the program, and what speaks to the ground.

@ Ticks, and resets the board where nobody strokes the watchdog
active component Board {

  @ From the interrupt to the thread
  internal port tick(count: U32) priority 20 drop

  output port CycleOut: Svc.Cycle

  sync input port WdogStroke: Svc.WatchDog

}

@ Sends packets to the ground, and hands on the commands that come from there
passive component Radio {

  @ How many components send packets
  constant SENDERS = 2

  guarded input port packetIn: [SENDERS] Fw.Com

  output port commandOut: Fw.Com

  @ How a command ended
  sync input port commandStatus: Fw.CmdResponse

}
