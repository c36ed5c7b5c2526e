"""The simulator of examples/, and a program that stands in for perfly_live, for the tests of the simulator."""
import sys

from .rows import TOP

sys.path.insert(0, str(TOP / "examples"))

import simulator  # noqa: E402

STAND_IN = TOP / "tools" / "tests" / "data" / "live_draws"
START = TOP / "examples" / "simulator" / "start"
KEYS = TOP / "examples" / "simulator" / "flight.keys"

__all__ = ["KEYS", "STAND_IN", "START", "simulator"]
