"""Pictures as the program and apitrace write them, and how much two of them differ."""
import collections

# Width, height, and rows of red, green and blue from the top.
Picture = collections.namedtuple("Picture", "width height rgb")
# Mean difference of a channel, the share of pixels with a channel off by more than 16, and the
# share of the second picture's pixels that aren't black; both shares in hundredths.
Difference = collections.namedtuple("Difference", "mean off drawn")
MOST_OFF = 16


def word(data, at):
    """The next word of a header, and the place of the byte that ends it. A comment is no word."""
    while data[at:at + 1].isspace() or data[at:at + 1] == b"#":
        at = data.index(b"\n", at) + 1 if data[at:at + 1] == b"#" else at + 1
    end = at
    while end < len(data) and not data[end:end + 1].isspace():
        end += 1
    return data[at:end], end


def picture_at(data, at=0):
    """The P6 picture of 8-bit channels that begins here, and the place behind it."""
    magic, at = word(data, at)
    width, at = word(data, at)
    height, at = word(data, at)
    most, at = word(data, at)
    if magic != b"P6" or most != b"255":
        raise ValueError("not a picture of 8-bit channels")
    size = 3 * int(width) * int(height)
    rgb = data[at + 1:at + 1 + size]
    if len(rgb) < size:
        raise ValueError("a picture that is cut off")
    return Picture(int(width), int(height), rgb), at + 1 + size


def pictures_of(data):
    """All pictures of a file, one behind the other."""
    at, found = 0, []
    while at < len(data):
        picture, at = picture_at(data, at)
        found.append(picture)
    return found


def difference(ours, theirs):
    """How far one picture is from another of the same size."""
    if ours[:2] != theirs[:2]:
        raise ValueError(f"pictures of {ours.width}x{ours.height} and "
                         f"{theirs.width}x{theirs.height}")
    apart = [abs(a - b) for a, b in zip(ours.rgb, theirs.rgb)]
    pixels = max(1, ours.width * ours.height)
    off = sum(max(three) > MOST_OFF for three in zip(apart[0::3], apart[1::3], apart[2::3]))
    rgb = theirs.rgb
    drawn = sum(any(three) for three in zip(rgb[0::3], rgb[1::3], rgb[2::3]))
    return Difference(sum(apart) / max(1, len(apart)), 100 * off / pixels, 100 * drawn / pixels)
