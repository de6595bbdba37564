"""The formats of planners' files into which a schedule can be put, and what puts it there."""

from collections.abc import Callable
from dataclasses import dataclass

from pert_companion.analysis.schedule import Schedule
from pert_companion.model.output import PLAN_GAN, PLAN_XER, PLAN_XML, FileKind
from pert_companion.model.sidefile import SideFile
from pert_companion.writers.gan_into import into_gan
from pert_companion.writers.mspdi_into import into_mspdi
from pert_companion.writers.pmxml_into import into_pmxml
from pert_companion.writers.xer_into import into_xer


@dataclass(frozen=True)
class WayBack:
    """How a schedule gets into the file of a planner."""

    planner: str
    ending: str
    kind: FileKind
    put: Callable[[bytes, str, Schedule, SideFile], tuple[bytes, list[str]]]
    """Returns an original with its name, changed, and a line for each task that it lacks."""


WAYS_BACK = {
    "mspdi": WayBack("MS Project (.xml)", ".xml", PLAN_XML, into_mspdi),
    "pmxml": WayBack("Primavera P6 (.xml)", ".xml", PLAN_XML, into_pmxml),
    "xer": WayBack("Primavera P6 (.xer)", ".xer", PLAN_XER, into_xer),
    "gan": WayBack("GanttProject (.gan)", ".gan", PLAN_GAN, into_gan),
}
"""By the name of the format's reader."""
