"""Images of textures: what a program gives as RGBA8, and smaller images and parts of these."""
import re
import struct

CHANNELS = {"GL_RGBA": "rgba", "GL_BGRA": "bgra", "GL_RGB": "rgb", "GL_BGR": "bgr",
            "GL_LUMINANCE": "l", "GL_LUMINANCE_ALPHA": "la", "GL_ALPHA": "a", "GL_RED": "r",
            "GL_INTENSITY": "i"}
KINDS = ("GL_UNSIGNED_BYTE", "GL_UNSIGNED_INT_8_8_8_8", "GL_UNSIGNED_INT_8_8_8_8_REV", "GL_FLOAT")
BASES = ("LUMINANCE_ALPHA", "LUMINANCE", "INTENSITY", "ALPHA", "RGBA", "RGB")
COUNTED = {1: "LUMINANCE", 2: "LUMINANCE_ALPHA", 3: "RGB", 4: "RGBA"}


def base_format(internal):
    """The base of an internal format, whatever sizes its name has."""
    if internal in COUNTED:
        return COUNTED[internal]
    name = re.sub(r"\d+", "", str(internal))
    return next((base for base in BASES if base in name), "RGBA")


class Image:
    """Texels in RGBA8, and what was made of them: the image of half its sides, and parts."""

    def __init__(self, width, height, texels, base):
        self.width, self.height, self.texels, self.base = width, height, texels, base
        self.smaller, self.parts = None, {}
        self.differs, self.times = None, 1      # of neighbours; texels in one of the program's
        self.made = [0]     # how many texels linear filters have made so far, of all images

    @property
    def has_alpha(self):
        return self.base in ("RGBA", "LUMINANCE_ALPHA", "INTENSITY")

    def opaque(self):
        """The same without alpha."""
        if "opaque" not in self.parts:
            base = {"ALPHA": "LUMINANCE"}.get(self.base, "RGB")
            self.parts["opaque"] = Image(self.width, self.height,
                                         as_base(bytearray(self.texels), base), base)
        return self.parts["opaque"]

    def level(self, number, side):
        """The image halved so often, and on until its sides are at most so long (0: any)."""
        image = self
        while (number > 0 or side and max(image.width, image.height) > side) \
                and max(image.width, image.height) > 1:
            number -= 1
            image.smaller = image.smaller or image.halved()
            image = image.smaller
        return image

    def part(self, column, row, side):
        """The part in this column and row of parts of so many texels a side."""
        if (column, row) not in self.parts:
            left, low = column * side, row * side
            width, height = min(side, self.width - left), min(side, self.height - low)
            starts = (4 * ((low + r) * self.width + left) for r in range(height))
            texels = b"".join(self.texels[at:at + 4 * width] for at in starts)
            self.parts[column, row] = Image(width, height, texels, self.base)
        return self.parts[column, row]

    def halved(self):
        """Each texel the mean of four, or of two where a side is one."""
        across, up = min(2, self.width), min(2, self.height)
        width, height, size = self.width // across, self.height // up, 4 * self.width
        out = bytearray(4 * width * height)
        for channel in range(4):
            means = []
            for row in range(height):
                first = up * row * size + channel
                columns = [self.texels[first + i * size + 4 * j:first + (i + 1) * size - channel:
                                       4 * across] for i in range(up) for j in range(across)]
                means += [sum(texels) // len(columns) for texels in zip(*columns)][:width]
            out[channel::4] = bytes(means)
        return Image(width, height, bytes(out), self.base)

    def with_part(self, x, y, width, height, texels):
        """The image with other texels in a part of it, which lies inside."""
        whole = bytearray(self.texels)
        for row in range(height):
            at = 4 * ((y + row) * self.width + x)
            whole[at:at + 4 * width] = texels[4 * row * width:4 * (row + 1) * width]
        return Image(self.width, self.height, bytes(whole), self.base)


def bytes_of_floats(data):
    count = len(data) // 4
    return bytes(max(0, min(255, int(255 * x + 0.5))) if x == x else 0
                 for x in struct.unpack_from(f"<{count}f", data))


def rows_of(data, width, height, channels, wide, store):
    """The texels of a picture without what pads its rows and what stands before them."""
    align = max(1, store.get("GL_UNPACK_ALIGNMENT", 4) // wide)
    length = store.get("GL_UNPACK_ROW_LENGTH", 0) or width
    stride = -(-length * channels // align) * align
    start = store.get("GL_UNPACK_SKIP_ROWS", 0) * stride
    start += store.get("GL_UNPACK_SKIP_PIXELS", 0) * channels
    starts = range(start, start + stride * height, stride)
    rows = b"".join(data[at:at + width * channels] for at in starts)
    return rows + bytes(max(0, width * height * channels - len(rows)))


def unpacked(data, width, height, form, kind, store):
    """RGBA8 texels of what a program gave, or None for a form that isn't read."""
    if form not in CHANNELS or kind not in KINDS:
        return None
    names = CHANNELS[form]
    if kind == "GL_FLOAT":
        data = bytes_of_floats(data)
    if kind == "GL_UNSIGNED_INT_8_8_8_8":
        names = names[::-1]
    wide = 4 if kind == "GL_FLOAT" else 1
    rows = rows_of(data, width, height, len(names), wide, store)
    count = width * height
    planes = {"r": bytes(count), "g": bytes(count), "b": bytes(count), "a": b"\xff" * count}
    planes.update({letter: rows[i::len(names)] for i, letter in enumerate(names)})
    for letter in set("li") & set(names):
        planes["r"] = planes["g"] = planes["b"] = planes[letter]
    out = bytearray(4 * count)
    for i, letter in enumerate("rgba"):
        out[i::4] = planes[letter]
    return out


def as_base(texels, base):
    """The texels as MODULATE has to have them: a channel that a format hasn't is one."""
    ones = b"\xff" * (len(texels) // 4)
    if base in ("RGB", "LUMINANCE"):
        texels[3::4] = ones
    if base == "INTENSITY":
        texels[3::4] = texels[0::4]
    if base == "ALPHA":
        texels[0::4] = texels[1::4] = texels[2::4] = ones
    if base in ("LUMINANCE", "LUMINANCE_ALPHA", "INTENSITY"):
        texels[1::4] = texels[2::4] = texels[0::4]
    return bytes(texels)
