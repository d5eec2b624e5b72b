# The ground interface: takes frames of packets and files from the ground, and gives it frames.

module Svc {

  @ The ways between spacecraft and ground
  enum Link { UPLINK, DOWNLINK }

  @ Frames packets for the ground, and takes frames from it apart
  passive component GroundInterface {

    constant LINKS = 2

    @ Whether each link is in use
    array Links = [LINKS] Fw.Enabled default Fw.Enabled.ENABLED

    struct Traffic {
      frames: U32
      bytes: [LINKS] U64 format "{} bytes"
      last: Link @< The link that was used last
    } default { last = Link.DOWNLINK }

    # ----------------------------------------------------------------------
    # Uplink
    # ----------------------------------------------------------------------

    @ Bytes from the driver
    sync input port readCallback: Fw.BufferSend

    @ Asks the driver for bytes
    output port readPoll: Fw.BufferSend

    sync input port schedIn: Sched

    output port uplinkPort: Fw.Com

    output port fileUplinkBufferGet: Fw.BufferGet

    output port fileUplinkBufferSendOut: Fw.BufferSend

    # ----------------------------------------------------------------------
    # Downlink
    # ----------------------------------------------------------------------

    guarded input port downlinkPort: [LINKS] Fw.Com

    guarded input port fileDownlinkBufferSendIn: Fw.BufferSend

    @ Gives a file's memory back
    output port fileDownlinkBufferSendOut: Fw.BufferSend

    @ Bytes for the driver
    output port write: Fw.BufferSend

    # ----------------------------------------------------------------------
    # Special ports
    # ----------------------------------------------------------------------

    import Fw.Parameters
    import Fw.Reporting

    # ----------------------------------------------------------------------
    # Commands and parameters
    # ----------------------------------------------------------------------

    @ Begins to count anew
    guarded command GND_CLEAR_COUNTS

    @ The most bytes of a packet
    param PACKET_LIMIT: U16 default 0x400

    @ The links in use from the start
    param LINKS_IN_USE: Links default [Fw.Enabled.ENABLED, Fw.Enabled.DISABLED] set opcode 0x20

    sync command GND_USE_LINK(link: Link, use: Fw.Enabled) opcode 0x10

    param GREETING: string size 20 default "hello, \"ground\"" id 7

    sync command GND_SEND_GREETING

    # ----------------------------------------------------------------------
    # Events and telemetry
    # ----------------------------------------------------------------------

    event FrameRefused(link: Link, cause: Fw.DeserialStatus, first: U8) \
      severity warning low \
      format "A frame of the {} was refused: {}, {{{x}}}" \
      throttle LINKS * 5

    event LinkUsed(link: Link, use: Fw.Enabled) severity activity low id 4 format "{} is {}"

    event NoBuffer severity warning high format "No memory for a file"

    telemetry Sent: Traffic

    telemetry Refused: U16 id 5 update on change low { yellow 0 } high { yellow 10, orange 20, }

    telemetry Used: Links update always format "links: {}"

  }

}
