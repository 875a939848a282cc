#!/usr/bin/env python3
"""Tests from_apitrace.py on traces written by hand: test_from_apitrace.py [CLASS[.TEST] ..]

Expected values are computed by hand from OpenGL's rules. Where the program is built (RENDER_CLI
names another place than crates/render_cli/out/render_cli) scenes are drawn by it too; where
apitrace is installed it is given files that are no traces. The last line is `N passed, M failed`,
and the status 1 where M isn't 0.
"""
import sys
import unittest

from trials.clients import Clients  # noqa: F401
from trials.drawing import Clipping, Light, Places, Primitives  # noqa: F401
from trials.ends import Hostile, Limits, Told  # noqa: F401
from trials.following import Lists, Textures, Values  # noqa: F401
from trials.films import Films  # noqa: F401
from trials.filters import Filters, Weights  # noqa: F401
from trials.smooth import Pixels, Smooth  # noqa: F401
from trials.states import Constants, Kinds, Points, VertexArrays  # noqa: F401
from trials.windows import Windows  # noqa: F401


def main():
    result = unittest.main(exit=False, verbosity=1).result
    failed = len(result.failures) + len(result.errors)
    skipped = f", {len(result.skipped)} not run" if result.skipped else ""
    print(f"{result.testsRun - failed - len(result.skipped)} passed, {failed} failed{skipped}")
    return 1 if failed else 0


if __name__ == "__main__":
    sys.exit(main())
