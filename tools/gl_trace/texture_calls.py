"""Calls that name textures, give them images, and say how these are laid on."""
from .context import OTHER_TEXTURES, Generation
from .faults import Refused
from .images import Image, as_base, base_format, unpacked
from .limits import MOST_IMAGE_SIDE, MOST_TEXELS
from .matrices import inverse, plane_by
from .state_calls import true

TARGETS = {"GL_TEXTURE_1D": "texture1", "GL_TEXTURE_2D": "texture2"}


def as_bytes(data):
    """The bytes of a blob, or None of what is none."""
    if isinstance(data, str):
        return data.encode("latin1")
    return data if isinstance(data, (bytes, bytearray)) else None


class TextureCalls:
    """What a machine does at these calls. A texture is its parameters by name, and its image."""

    def begin_textures(self):
        self.textures, self.texels = {}, 0

    def do_ActiveTexture(self, name):
        self.values["unit"] = int(name.replace("GL_TEXTURE", "")) if isinstance(name, str) \
            else name - 0x84C0

    def beyond_first(self, what):
        """Whether a call is about another texture unit than the first, the only one drawn."""
        if self.values["unit"]:
            self.notes.left_out(f"{what} of a further texture unit")
        return self.values["unit"] != 0

    def do_BindTexture(self, target, name):
        if target in OTHER_TEXTURES:
            return      # what is drawn with one is told
        if target not in TARGETS:
            self.notes.left_out(f"glBindTexture({target})")
        elif not isinstance(name, int):
            raise TypeError("a texture that isn't a number")
        else:
            self.values[self.binding(target)] = name

    def binding(self, target):
        unit = self.values["unit"]
        return TARGETS[target] + (f" of unit {unit}" if unit else "")

    def texture(self, target):
        """The texture that is bound; those that nobody named belong to their target."""
        name = self.values.get(self.binding(target), 0) if target in TARGETS else None
        return self.textures.setdefault(name or (target, name),
                                        {"GL_TEXTURE_MAG_FILTER": "GL_LINEAR"})

    def do_DeleteTextures(self, count, names):
        for name in names:
            self.textures.pop(name, None)

    def do_PixelStore(self, name, value):
        self.context.store[name] = value

    def do_TexParameter(self, target, name, *values):
        self.texture(target)[name] = values[0]

    # -- images --

    def do_TexImage2D(self, target, level, internal, width, height, border, form, kind, pixels):
        if level != 0 or target.startswith("GL_PROXY"):
            return
        if border or not (0 <= width <= MOST_IMAGE_SIDE and 0 <= height <= MOST_IMAGE_SIDE):
            self.notes.left_out("glTexImage2D(with a border)" if border else
                                f"glTexImage2D({width} by {height})")
            return
        self.texels += width * height
        if self.texels > MOST_TEXELS:
            raise Refused(f"textures of more than {MOST_TEXELS} texels")
        data, base = as_bytes(pixels), base_format(internal)
        texels = bytearray(4 * width * height)
        if data:
            texels = unpacked(data, width, height, form, kind, self.context.store)
        if texels is None:
            self.notes.left_out(f"glTexImage2D({form}, {kind})")
            return
        image = Image(width, height, as_base(texels, base), base) if width * height else None
        self.set_image(target, image)

    def set_image(self, target, image):
        texture = self.texture(target)
        before = texture.get("image")
        self.texels -= before.width * before.height if before else 0
        texture["image"] = image

    def do_TexImage1D(self, target, level, internal, width, border, form, kind, pixels):
        self.do_TexImage2D(target, level, internal, width, 1, border, form, kind, pixels)

    def do_TexSubImage2D(self, target, level, x, y, width, height, form, kind, pixels):
        if level != 0:
            return
        image, data = self.texture(target).get("image"), as_bytes(pixels)
        inside = image and 0 <= x <= x + width <= image.width and 0 <= y <= y + height \
            <= image.height
        texels = unpacked(data, width, height, form, kind, self.context.store) \
            if data and inside else None
        if texels is None:
            self.notes.left_out("glTexSubImage2D")
            return
        self.texture(target)["image"] = image.with_part(x, y, width, height,
                                                        as_base(texels, image.base))

    def do_TexSubImage1D(self, target, level, x, width, form, kind, pixels):
        self.do_TexSubImage2D(target, level, x, 0, width, 1, form, kind, pixels)

    def do_CopyTexImage2D(self, target, level, internal, x, y, width, height, border):
        self.notes.left_out("glCopyTexImage2D", True)
        if level == 0 and target in TARGETS:
            base = base_format(internal)
            self.set_image(target, Image(1, 1, as_base(bytearray(4), base), base))
            self.texture(target)["copied"] = "glCopyTexImage2D"
            self.texels += 1

    def do_CopyTexSubImage2D(self, target, level, *part):
        self.notes.left_out("glCopyTexSubImage2D", True)
        if level == 0 and target in TARGETS:
            self.texture(target)["copied"] = "glCopyTexSubImage2D"

    # -- how they are laid on --

    def do_TexEnv(self, target, name, *values):
        if self.beyond_first("glTexEnv"):
            return
        if name == "GL_TEXTURE_ENV_MODE":
            self.values["environment"] = values[0]
        elif name == "GL_COORD_REPLACE":
            self.values["sprites"] = true(values[0])

    def do_TexGen(self, coordinate, name, *values):
        if self.beyond_first("glTexGen"):
            return
        made = self.values["generation"].get(coordinate, Generation("GL_EYE_LINEAR", None, None))
        if name == "GL_TEXTURE_GEN_MODE":
            made = made._replace(mode=values[0])
        elif name == "GL_OBJECT_PLANE":
            made = made._replace(object_plane=tuple(values))
        else:
            matrix = inverse(self.context.stacks["GL_MODELVIEW"][-1])
            made = made._replace(eye_plane=plane_by(values, matrix))
        self.values["generation"] = {**self.values["generation"], coordinate: made}
