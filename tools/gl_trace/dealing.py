"""Items for several clients, whose picture stays that of one; and programs beside one another."""
from .items import BARRIER, SWAP, Block, Clear

MOST_AHEAD = 1500   # vertices that one client may draw in a round while another has nothing to do
# Depth tests under which the order of opaque blocks doesn't matter, but where two have one depth.
NEARER = ((1, 1), (3, 1))


def overlap(a, b):
    return a[0] < b[2] and b[0] < a[2] and a[1] < b[3] and b[1] < a[3]


def opaque(item):
    return isinstance(item, Block) and item.state.depth in NEARER and item.state.blend is None


class Touched:
    """The boxes that a client's items touch in a round."""

    def __init__(self):
        self.boxes, self.around = [], None

    def add(self, box):
        self.boxes.append(box)
        a = self.around
        self.around = box if a is None else (min(a[0], box[0]), min(a[1], box[1]),
                                             max(a[2], box[2]), max(a[3], box[3]))

    def meets(self, box):
        return self.around is not None and overlap(box, self.around) \
            and any(overlap(box, other) for other in self.boxes)


class Dealer:
    """Deals items in their order. In a round, which ends where all clients meet at a barrier, no
    two clients' items may touch a pixel; `by_depth` lets opaque blocks overlap."""

    def __init__(self, clients, by_depth, width):
        self.clients, self.by_depth, self.width = range(clients), by_depth, width
        self.streams = [[] for _ in self.clients]
        self.whole = [0] * clients
        self.begin_round()

    def begin_round(self):
        self.load = [0 for _ in self.clients]
        self.ordered = [Touched() for _ in self.clients]
        self.free = [Touched() for _ in self.clients]

    def meet(self, mark):
        for stream in self.streams:
            stream.append(mark)
        self.begin_round()

    def deal(self, items):
        for item in items:
            if item == SWAP:
                self.meet(SWAP)
                continue
            is_free = self.by_depth and opaque(item)
            client = self.client_of(item, is_free)
            size = item.vertices if isinstance(item, Block) else 1
            self.streams[client].append(item)
            (self.free if is_free else self.ordered)[client].add(item.box)
            self.load[client] += size
            self.whole[client] += size
            if isinstance(item, Clear) and len(self.clients) > 1:
                self.meet(BARRIER)
        return self.streams

    def client_of(self, item, is_free):
        """The one client whose items this one touches; else that of its stripe of the window, or
        the one with least. Where several are touched, or one is far ahead, a round begins."""
        touched = [client for client in self.clients
                   if self.ordered[client].meets(item.box)
                   or not is_free and self.free[client].meets(item.box)]
        if len(touched) == 1 and self.load[touched[0]] <= MOST_AHEAD + 2 * min(self.load):
            return touched[0]
        if touched:
            self.meet(BARRIER)
        middle = (item.box[0] + item.box[2]) // 2
        stripe = min(len(self.clients) - 1, max(0, middle * len(self.clients) // self.width))
        least = min(self.clients, key=lambda client: self.whole[client])
        if is_free or self.whole[stripe] > MOST_AHEAD + self.whole[least]:
            return least
        return stripe


def deal(items, clients, by_depth, width):
    """Streams of items for so many clients."""
    return [items] if clients == 1 else Dealer(clients, by_depth, width).deal(items)


def moved(item, x, y, area):
    """An item of a program that has a part of a wall: it stands elsewhere, and keeps to the part.
    The area is the program's own window."""
    width, height = area
    if isinstance(item, Clear):
        left, low, w, h = item.scissor or (0, 0, width, height)
        right, high = min(width, left + w), min(height, low + h)
        left, low = max(0, left), max(0, low)
        return item._replace(scissor=(left + x, low + y, max(0, right - left), max(0, high - low)))
    if isinstance(item, Block):
        left, low, w, h = item.state.scissor or (0, 0, width, height)
        right, high = min(width, left + w), min(height, low + h)
        left, low = max(0, left), max(0, low)
        vx, vy, vw, vh = item.state.viewport
        scissor = (left + x, low + y, max(0, right - left), max(0, high - low))
        return item._replace(state=item.state._replace(viewport=(vx + x, vy + y, vw, vh),
                                                       scissor=scissor))
    return item


def wall(programs, columns):
    """The size of a wall of programs, given as size and items, and the stream of each: in rows
    from the top left, each in a rectangle of the largest size."""
    width, height = (max(size[i] for size, _ in programs) for i in (0, 1))
    rows = -(-len(programs) // columns)
    streams = []
    for i, (size, items) in enumerate(programs):
        x, y = i % columns * width, (rows - 1 - i // columns) * height
        streams.append([moved(item, x, y, size) for item in items])
    return (columns * width, rows * height), streams
