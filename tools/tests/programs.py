"""The built programs that tests run over, where they are there."""
import os
import pathlib
import unittest
from unittest import mock

from perfly_play import rendering

from .rows import TOP


def built(name):
    """The program of this name: the one that PERFLY or PERFLY_LIVE names, from here or from the top, or the built one;
    None where there is none."""
    given = os.environ.get(name.upper()) or str(rendering.built(name))
    return next((str(path.resolve()) for path in (pathlib.Path(given), TOP / given) if path.is_file()), None)


PERFLY, PERFLY_LIVE = built("perfly"), built("perfly_live")


@unittest.skipUnless(PERFLY_LIVE, "perfly_live is not built")
class OverPerflyLive(unittest.TestCase):
    """Tests over the built perfly_live; those of them that compare with perfly need that too."""

    def setUp(self):
        programs = {"PERFLY_LIVE": PERFLY_LIVE, **({"PERFLY": PERFLY} if PERFLY else {})}
        patch = mock.patch.dict(os.environ, programs)
        patch.start()
        self.addCleanup(patch.stop)
