"""Which pixels a line has that isn't smooth, and a quad in sixteenths of a pixel that has them.

A line goes along its greater axis. A pixel is drawn where the line leaves the diamond in it, and so
many pixels across: where it begins in a diamond that pixel is drawn, and where it ends in one that
pixel isn't.
"""
import math

# What lies on a border is a little lower and further left; places are 256ths of a pixel in Mesa.
BESIDE, BELOW, SUBPIXELS = 1e-6, 1e-9, 256
# Where an end may lie: between the middles of two pixels, in sixteenths.
BETWEEN = range(1, 16)


def ends_of(start, end, width):
    """Of a line between places in the window: two ends in sixteenths of a pixel, each with its
    share of the way from start to end, which may lie beyond; and half of its width to the sides.
    None where it has no pixel."""
    (x1, y1), (x2, y2) = ((x - BESIDE, y - BELOW) for x, y in (start, end))
    flat = abs(x2 - x1) >= abs(y2 - y1)
    (a, p), (b, q) = ((x1, y1), (x2, y2)) if flat else ((y1, x1), (y2, x2))
    if a == b:
        return None
    slope, way = (q - p) / (b - a), 1 if b > a else -1
    (first, low), (last, high) = (snapped(*whole(place, across, slope, way))
                                  for place, across in ((a, p), (b, q)))
    if first > last:
        first, low, last, high = last, high, first, low
    columns = math.ceil(first - 0.5), math.ceil(last - 0.5)
    if columns[0] >= columns[1]:
        return None
    steep = (high - low) / (last - first)
    found = [best(column, lambda place: low + (place - first) * steep) for column in columns]
    if abs(steep) in (0.0, 1.0) and (found[0][1] - 8 * width) % 16 == 8:
        found = [(place, across - 1) for place, across in found]
    if way < 0:
        found.reverse()
    ends = [((place, across) if flat else (across, place), (place / 16 - a) / (b - a))
            for place, across in found]
    return (*ends, (0, 8 * width) if flat else (8 * width, 0))


def whole(place, across, slope, way):
    """An end that lies in a diamond moved to where its pixel begins."""
    if abs(place % 1 - 0.5) + abs(across % 1 - 0.5) >= 0.5:
        return place, across
    moved = math.floor(place) + (way < 0)
    return moved, across + (moved - place) * slope


def snapped(*places):
    return [math.floor(SUBPIXELS * place + 0.5) / SUBPIXELS for place in places]


def best(column, across):
    """A place before the middle of a column, in sixteenths, where the line's own place across it
    is nearest to one."""
    places = [16 * column - 8 + i for i in BETWEEN]
    return min(((place, round(16 * across(place / 16))) for place in places),
               key=lambda found: abs(16 * across(found[0] / 16) - found[1]))
