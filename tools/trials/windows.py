"""How large a scene is where a program has several windows, and what is told of them."""
import pickle
import unittest

from .hand_traces import CLEAR, PLANE, SWAP, WINDOW, converted, pickled, places, primitive

TAKEN = "from_apitrace: the window is taken as 64x48, that of the first swap; others were {}"
DRAWN = [CLEAR, PLANE, *primitive("GL_TRIANGLES", (0, 0), (9, 0), (0, 9))]


def viewport(width, height):
    return ("glViewport", 0, 0, width, height)


def current(window, context):
    return ("glXMakeCurrent", 1, window, context)


def told_by_apitrace(*calls):
    """A stream in which viewports with a mark are those that apitrace adds to the program's."""
    return b"".join(pickle.dumps((number, name.removeprefix("*"), [("", value) for value in values],
                                  None, int(name.startswith("*"))), 2)
                    for number, (name, *values) in enumerate(calls))


class Windows(unittest.TestCase):
    def test_the_window_is_that_of_the_context_that_swaps(self):
        made = converted(pickled(current(5, 7), viewport(32, 32), current(6, 8), viewport(64, 48),
                                 *DRAWN, ("glXSwapBuffers", 1, 6)))
        self.assertEqual(made.scene.size, (64, 48))
        self.assertIn(TAKEN.format("32x32"), made.lines)
        self.assertFalse(any("of several" in line for line in made.lines))

    def test_a_window_that_is_made_larger_is_so_large(self):
        made = converted(pickled(current(5, 7), viewport(1, 1), viewport(64, 48), *DRAWN,
                                 ("glXSwapBuffers", 1, 5)))
        self.assertEqual(made.scene.size, (64, 48))
        self.assertIn(TAKEN.format("1x1"), made.lines)

    def test_a_viewport_in_a_part_of_the_window_leaves_its_size(self):
        made = converted(pickled(current(5, 7), viewport(64, 48), viewport(32, 64),
                                 ("glViewport", 16, 16, 64, 64), *DRAWN, ("glXSwapBuffers", 1, 5)))
        self.assertEqual((made.scene.size, len(made.lines)), ((64, 48), 1))

    def test_apitrace_tells_a_window_behind_the_call_that_makes_it_current(self):
        data = told_by_apitrace(current(5, 7), ("*glViewport", 0, 0, 64, 48), viewport(32, 32),
                                *DRAWN, ("glXSwapBuffers", 1, 5))
        made = converted(data).scene
        self.assertEqual((made.size, places(made.blocks[0])[0]), ((64, 48), (0, 0)))

    def test_a_size_that_is_said_is_that(self):
        made = converted(pickled(current(5, 7), viewport(32, 32), current(6, 8), viewport(64, 48),
                                 *DRAWN, ("glXSwapBuffers", 1, 6)), "--size", "20x10")
        self.assertEqual((made.scene.size, len(made.lines)), ((20, 10), 1))

    def test_windows_that_are_drawn_in_are_told(self):
        made = converted(pickled(current(2, 7), WINDOW, CLEAR, SWAP, current(3, 7), CLEAR, SWAP),
                         "--frames", "0:2")
        self.assertIn("from_apitrace: approximated a window of several, which are drawn as one 2",
                      made.lines)
