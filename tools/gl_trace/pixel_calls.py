"""Calls that draw at the raster position: bitmaps and pictures, as rectangles of the window."""
import math

from .blocks import block_of
from .images import Image, unpacked
from .items import FAN, TRIANGLES
from .limits import MOST_IMAGE_SIDE
from .matrices import transform
from .shading import Run, shaded
from .texture_calls import as_bytes

BLOCK = 240         # vertices of a block of rectangles
EPSILON = 0.0001    # that Mesa adds to the place of a bitmap before it rounds down


class PixelCalls:
    """What a machine does at these calls. The raster position is x, y, depth, and a colour; None
    where it isn't valid."""

    def do_RasterPos(self, x, y, z=0.0, w=1.0):
        self.values["raster"], setting = None, self.now()
        if setting is None:
            return
        place = cx, cy, cz, cw = transform(setting.whole, x, y, z, w)
        if not (cw > 0 and math.isfinite(sum(place)) and max(map(abs, place[:3])) <= cw):
            return
        left, low, width, height = setting.viewport
        near, far = self.values["depth_range"]
        self.values["raster"] = (left + (cx / cw + 1) * width / 2, low + (cy / cw + 1) * height / 2,
                                 near + (far - near) * (cz / cw + 1) / 2,
                                 self.raster_color(setting, (x, y, z, w)))

    def do_WindowPos(self, x, y, z=0.0):
        color = tuple(max(0.0, min(255.0, 255 * c)) for c in self.values["color"])
        self.values["raster"] = (x, y, max(0.0, min(1.0, z)), color)

    def raster_color(self, setting, point):
        run, values = Run("GL_POINTS"), self.values
        run.points, run.normals, run.colors = [point], [values["normal"]], [values["color"]]
        run.coordinates = [values["coordinate"]]
        return shaded(setting, run, True).fronts[0]

    def do_PixelZoom(self, across, up):
        self.values["zoom"] = across, up

    def do_Bitmap(self, width, height, left, low, across, up, bitmap):
        raster, data = self.values["raster"], as_bytes(bitmap)
        if raster is None:
            return
        x, y, depth, color = raster
        self.values["raster"] = x + across, y + up, depth, color
        if not data or not self.draws_pixels("glBitmap", width, height):
            return
        column, row = math.floor(x - left + EPSILON), math.floor(y - low + EPSILON)
        places, window = [], self.window_state()
        for box in boxes_of(data, width, height, self.context.store):
            a, b, c, d = self.in_window(column + box[0], row + box[1], column + box[2],
                                        row + box[3], depth)
            places += (a, b, c, a, c, d)
        for at in range(0, len(places), BLOCK):
            part = places[at:at + BLOCK]
            self.add(block_of(window, TRIANGLES, part, [color] * len(part), None), TRIANGLES, part)

    def do_DrawPixels(self, width, height, form, kind, pixels):
        raster, data = self.values["raster"], as_bytes(pixels)
        if raster is None or not data or not self.draws_pixels("glDrawPixels", width, height):
            return
        texels = unpacked(data, width, height, form, kind, self.context.store)
        if texels is None:
            self.notes.left_out(f"glDrawPixels({form}, {kind})")
            return
        image, side = Image(width, height, bytes(texels), "RGBA"), self.options.texture_side
        x, y, depth, _ = raster
        x, y, (zoom_x, zoom_y) = round(x), round(y), self.values["zoom"]
        ends = (0.0, 0.0), (1.0, 0.0), (1.0, 1.0), (0.0, 1.0)
        for column in range(-(-width // side)):
            for row in range(-(-height // side)):
                part = image.part(column, row, side)
                left, low = x + zoom_x * column * side, y + zoom_y * row * side
                places = self.in_window(left, low, left + zoom_x * part.width,
                                        low + zoom_y * part.height, depth)
                state = self.window_state()._replace(texture=(part, 1, (1, 1)))
                self.add(block_of(state, FAN, places, None, ends), FAN, places)

    def draws_pixels(self, call, width, height):
        """Whether a call that draws pixels is to be followed now; and what is told of it."""
        setting = self.now()
        if not self.wanted or setting is None or self.size_now() is None or not width * height:
            return False
        if max(width, height) > MOST_IMAGE_SIDE or self.values["framebuffer"]:
            self.notes.left_out(f"{call}({width} by {height})")
            return False
        self.drawing, self.concerns = 4, []
        for kind, what in setting.concerns("GL_POLYGON"):
            self.concern(kind, what)
        if setting.texture or setting.fog:
            self.concern("approximated", f"{call} without texture and fog")
        return True

    def window_state(self):
        """The state of blocks whose places are those of the window, with depths as they are."""
        return self.now().state(None, cull=False)._replace(
            viewport=(0, 0, *self.size_now()), depth_range=(0, 65536))

    def in_window(self, left, low, right, high, depth):
        """The corners of a rectangle of the window."""
        width, height = self.size_now()
        return [(2 * x / width - 1, 2 * y / height - 1, 2 * depth - 1, 1.0)
                for x, y in ((left, low), (right, low), (right, high), (left, high))]


def bits_of(data, width, height, store):
    """The rows of a bitmap, from the lowest up, as strings of 0 and 1."""
    align = store.get("GL_UNPACK_ALIGNMENT", 4)
    length = store.get("GL_UNPACK_ROW_LENGTH", 0) or width
    stride = -(-(-(-length // 8)) // align) * align
    skipped = store.get("GL_UNPACK_SKIP_PIXELS", 0)
    from_low = store.get("GL_UNPACK_LSB_FIRST", 0) not in (0, "GL_FALSE")
    for row in range(store.get("GL_UNPACK_SKIP_ROWS", 0), store.get("GL_UNPACK_SKIP_ROWS", 0)
                     + height):
        line = data[row * stride:(row + 1) * stride]
        digits = "".join(f"{byte:08b}"[::-1 if from_low else 1] for byte in line)
        yield digits[skipped:skipped + width]


def boxes_of(data, width, height, store):
    """Rectangles of the bits that are set: left, low, right, high. What is the same in rows one
    above the other is one of them."""
    done, going = [], {}
    for row, digits in enumerate([*bits_of(data, width, height, store), ""]):
        runs, at = set(), 0
        while (first := digits.find("1", at)) >= 0:
            at = digits.find("0", first)
            at = len(digits) if at < 0 else at
            runs.add((first, at))
        done += [(left, low, right, row) for (left, right), low in going.items()
                 if (left, right) not in runs]
        going = {run: going.get(run, row) for run in sorted(runs)}
    return done
