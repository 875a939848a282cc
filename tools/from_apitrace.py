#!/usr/bin/env python3
"""Writes frames of traced OpenGL 1.x programs as a scene.

    apitrace trace -o gears.trace glxgears
    from_apitrace.py --frames 10:12 gears.trace > gears.rcs
    from_apitrace.py --frames 10:12 --clients 4 gears.trace > gears-4.rcs
    from_apitrace.py --frames 0:300 --pieces 50 --to film gears.trace     film-0000.rcs and on
    from_apitrace.py left.trace right.trace > wall.rcs          one client each, side by side
    apitrace pickle --symbolic gears.trace | from_apitrace.py - > gears.rcs

Python and apitrace are all that it needs. docs/real-programs.md tells what comes out how.
"""
import sys

from gl_trace.command_line import main

if __name__ == "__main__":
    sys.exit(main())
