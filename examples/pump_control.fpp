# The control of the pumps: how each is started, held at its pressure and stopped, and what happens where it fails.

module Pumps {

  @ Controls the pumps, each by a state machine of its own
  active component Controller {

    @ The machines' signals come before commands and beats
    constant SIGNAL_PRIORITY = 10

    # ----------------------------------------------------------------------
    # State machines
    # ----------------------------------------------------------------------

    @ What one pump does
    state machine Control {

      @ The pump is to run
      signal start

      @ The pump is to stand still
      signal stop

      @ The motor turns as fast as it was told
      signal atSpeed

      @ A pressure was read behind the pump
      signal pressureRead: Units.Pascals

      @ The motor draws too much current, or none
      signal motorFault

      @ The ground has seen the fault
      signal clearFault

      action powerOn
      action powerOff
      action stir @< Turns the motor for a moment, so that nothing settles
      action countStart
      action reportFault
      action forgetFaults

      @ Drives the motor by a pressure
      action drive: Units.Pascals

      @ Says that a pressure can't be right
      action reportPressure: Units.Pascals

      @ Whether a pressure is one that the pump can make
      guard isPlausible: Units.Pascals

      @ Whether the motor has failed but a few times
      guard mayRetry

      initial enter OFF

      @ The motor has no power
      state OFF {
        on start enter ON
        on clearFault do { stir }
      }

      @ The motor has power
      state ON {
        entry do { powerOn }
        exit do { powerOff }

        initial do { countStart } enter SPIN_UP

        on stop enter OFF
        on motorFault enter FAILED

        @ Until the motor turns
        state SPIN_UP {
          on atSpeed enter RUNNING
        }

        @ The motor is driven by the pressure
        state RUNNING {
          on pressureRead enter PRESSURE
        }

        @ A pressure drives the motor where it can be right
        choice PRESSURE {
          if isPlausible do { drive } enter RUNNING
          else do { reportPressure } enter RUNNING
        }
      }

      @ A motor that failed is started anew, but not for ever
      choice FAILED {
        if mayRetry enter ON
        else do { reportFault } enter FAULT
      }

      @ The pump waits for the ground
      state FAULT {
        on clearFault do { forgetFaults } enter OFF
      }

    }

    state machine instance primary: Control priority SIGNAL_PRIORITY
    state machine instance spare: Control priority SIGNAL_PRIORITY - 1 block

    # ----------------------------------------------------------------------
    # Ports
    # ----------------------------------------------------------------------

    @ A beat of the schedule: the pressures are read
    async input port schedIn: Svc.Sched drop

    @ What is said of the pumps
    output port reportOut: Send

    import Fw.Command
    import Fw.Reporting

    # ----------------------------------------------------------------------
    # Commands, events and telemetry
    # ----------------------------------------------------------------------

    @ Starts or stops the pumps
    async command PUMP_SET_MODE(mode: Mode)

    @ Takes notice of a fault
    async command PUMP_CLEAR_FAULT(pump: U8)

    event MotorFailed(pump: U8) severity warning high format "The motor of pump {} has failed"

    event PressureRefused(pump: U8, pressure: Units.Pascals) \
      severity warning low \
      format "Pump {} can't make {} Pa" \
      throttle 5

    telemetry Starts: U16 update on change

  }

}
