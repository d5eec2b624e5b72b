@ Keeps the temperature between two bounds
active component HeaterController {

  # ----------------------------------------------------------------------
  # The state machine
  # ----------------------------------------------------------------------

  state machine Control {

    @ The ground wants the temperature to be kept
    signal enable

    @ The ground wants the heaters off
    signal disable

    @ A reading is below the lower bound
    signal cold: Temperature

    @ A reading is above the upper bound
    signal warm

    @ A heater draws no current though it is on
    signal heaterFault

    action switchOn
    action switchOff
    action countCycle
    action reportFault
    action reportRefusal: Temperature

    @ Whether the reading can be right, and the heaters have rested
    guard mayHeat: Temperature

    initial enter STANDBY

    @ The heaters are off
    state STANDBY {
      on enable enter REGULATING
    }

    @ The temperature is kept
    state REGULATING {

      exit do { switchOff }

      initial enter IDLE

      on disable enter STANDBY
      on heaterFault enter SAFE

      @ It is warm enough
      state IDLE {
        on cold enter DECISION
      }

      @ The heaters are on
      state HEATING {
        entry do { switchOn, countCycle }
        on warm do { switchOff } enter IDLE
      }

      choice DECISION {
        if mayHeat enter HEATING
        else do { reportRefusal } enter IDLE
      }

    }

    @ A heater has failed, and the ground has to look
    state SAFE {
      entry do { reportFault }
      on disable enter STANDBY
    }

  }

  @ What is read comes before what the ground wants
  state machine instance control: Control priority 5 assert

  # ----------------------------------------------------------------------
  # Ports
  # ----------------------------------------------------------------------

  async input port readingsIn: ReadingsSend priority 4 drop

  async input port schedIn: Svc.Sched drop

  output port switchOut: [HEATERS] Switch

  @ What each heater does
  sync input port statusIn: [HEATERS] HeaterStatus

  match switchOut with statusIn

  import Svc.Pinged
  import Fw.Parameters
  import Fw.Reporting

  # ----------------------------------------------------------------------
  # What the ground sees
  # ----------------------------------------------------------------------

  include "heater_controller_dictionary.fppi"

}
