"""Scene after scene of one trace, so that a film may be longer than a scene."""
from .dealing import deal
from .encoding import scene_bytes
from .faults import Refused
from .items import SWAP
from .limits import MOST_COMMANDS


class Pieces:
    """Writes scenes of so many frames, NAME-0000.rcs and on, as a machine comes to their ends. One
    ends earlier where its frames have half of the commands that a scene may have."""

    def __init__(self, options, tell):
        self.options, self.tell = options, tell
        self.number, self.frames, self.next = 0, 0, options.frames[0]

    def frame(self, machine):
        """Takes the frame that a machine has just ended."""
        self.frames += 1
        full = machine.commands > MOST_COMMANDS // 2
        if self.frames == self.options.pieces or full or machine.frame + 1 == machine.last:
            self.end(machine)

    def end(self, machine):
        """Writes the frames that are held, and lets go of them."""
        if self.frames:
            machine.note_beginning(self.next)
            self.write(machine.size, machine.items)
            machine.items, machine.commands, self.frames = [], 0, 0

    def write(self, size, items):
        """Writes these frames as a scene, or as two where one can't hold them."""
        options, ends = self.options, [i + 1 for i, item in enumerate(items) if item == SWAP]
        try:
            streams = deal(items, options.clients, options.by_depth, size[0])
            data, commands = scene_bytes(size, streams, not options.no_lists, options.version)
        except Refused:
            if len(ends) < 2:
                raise
            middle = ends[len(ends) // 2 - 1]
            self.write(size, items[:middle])
            self.write(size, items[middle:])
            return
        path = f"{options.to}-{self.number:04}.rcs"
        try:
            with open(path, "wb") as file:
                file.write(data)
        except OSError as fault:
            raise Refused(f"{path}: {fault.strerror}") from None
        last = self.next + len(ends)
        self.tell(f"{path}: frames {self.next}:{last}, {size[0]}x{size[1]}, version "
                  f"{data[3:4].decode()}, {commands} commands, {len(data)} bytes")
        self.number, self.next = self.number + 1, last
