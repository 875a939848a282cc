"""Calls that make a context current for a window, and how large the window is that is shown."""
from .items import Clear


class WindowCalls:
    """What a machine does at these calls."""

    def begin_windows(self, size):
        self.given, self.size, self.window = size, size, None
        self.sizes, self.seen, self.drawn_in = {}, [], set()

    def make_current(self, *arguments):
        self.use(arguments[-1])
        if arguments[-1] and len(arguments) > 2:
            self.window = arguments[1]

    def see_window(self, x, y, width, height):
        """A window is as large as the first viewport that is set in it, which apitrace writes
        behind the call that makes a context current; or as one that holds that."""
        if width < 1 or height < 1 or self.values["framebuffer"]:
            return
        before = self.sizes.get(self.window)
        grown = before and x == y == 0 and width >= before[0] and height >= before[1]
        if before is None or grown:
            self.sizes[self.window] = (width, height)
            if (width, height) not in self.seen:
                self.seen.append((width, height))

    def size_now(self):
        """The size of the window that is drawn in, or None where none is known."""
        return self.given or self.sizes.get(self.window) or self.size \
            or next(iter(self.sizes.values()), None)

    def settle_size(self, window):
        """The scene's window is the one that is shown at the first swap."""
        if self.size is None:
            known = self.sizes.get(window), self.sizes.get(self.window), *self.sizes.values()
            self.size = next(filter(None, known), None)
            if self.size:
                self.items[:] = [item._replace(box=(0, 0, *self.size)) if is_whole(item) else item
                                 for item in self.items]

    def note_windows(self):
        others = [f"{w}x{h}" for w, h in self.seen if (w, h) != self.size]
        if others and not self.given and self.size:
            self.notes.say("the window is taken as {}x{}, that of the first swap; others were {}"
                           .format(*self.size, ", ".join(others)))
        for _ in self.drawn_in if len(self.drawn_in) > 1 else ():
            self.notes.approximated("a window of several, which are drawn as one")


def is_whole(item):
    return isinstance(item, Clear) and item.scissor is None
