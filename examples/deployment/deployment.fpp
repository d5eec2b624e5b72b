# A deployment that keeps a small spacecraft warm: the services of a flight software framework, a thermal control, their instances and
# two topologies. It stands on files of the folder above it:
#
#   ./fpp ports Flight.Vehicle examples/{types,ports,command_dispatcher,health}.fpp examples/deployment/deployment.fpp

module Svc {
  include "rate_groups.fppi"
  include "services.fppi"
}

module Drv {
  include "board.fppi"
}

module Thermal {
  include "thermal.fppi"
  include "heater_controller.fppi"
}

module Flight {
  include "instances.fppi"
  include "topologies.fppi"
}
