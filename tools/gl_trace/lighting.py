"""Colours of vertices by OpenGL's lights and materials."""
import math

from .matrices import normal_rows, rescaled, unit

TRACKED = {"GL_AMBIENT_AND_DIFFUSE": ("ambient", "diffuse"), "GL_AMBIENT": ("ambient",),
           "GL_DIFFUSE": ("diffuse",), "GL_SPECULAR": ("specular",), "GL_EMISSION": ("emission",)}
FARTHEST = 3.4e38      # squared


def products(a, b):
    return a[0] * b[0], a[1] * b[1], a[2] * b[2]


class Lamp:
    """A light under the viewer: where it shines from, and how strongly."""

    def __init__(self, light, local):
        self.light = light
        x, y, z, w = light.position
        self.positional = bool(w)
        self.place = (x / w, y / w, z / w) if w else unit((x, y, z))
        # Where neither light nor viewer has a place, the vector between the two is one for all.
        self.half = None
        if not w and not local:
            self.half = unit((self.place[0], self.place[1], self.place[2] + 1.0))
        self.spot = None
        if light.cutoff != 180.0:
            self.spot = unit(light.direction), math.cos(math.radians(light.cutoff))

    def reach(self, point):
        """The direction from a point to the light, and how much of the light comes there."""
        if not self.positional:
            to, strength = self.place, 1.0
        else:
            x, y, z = self.place
            x, y, z = x - point[0], y - point[1], z - point[2]
            square = x * x + y * y + z * z
            d = math.sqrt(square)
            light = self.light
            fading = light.constant + light.linear * d + light.quadratic * d * d
            strength = 1.0 / fading if fading else 1.0
            # Beyond the numbers of a graphics card a light comes from nowhere.
            to = (x / d, y / d, z / d) if 0 < square < FARTHEST else (0.0, 0.0, 0.0)
        if self.spot:
            (x, y, z), least = self.spot
            cosine = -(to[0] * x + to[1] * y + to[2] * z)
            strength *= cosine ** self.light.exponent if cosine >= least and cosine > 0 else 0.0
        return to, strength


def kept_lamp(lamps, light, local):
    """The lamp of a light, made where the light is a new one."""
    key = id(light), local
    if key not in lamps:
        lamps[key] = Lamp(light, local)     # which keeps the light, so that its id stays its own
    return lamps[key]


def rows_of_normals(values, modelview):
    """What normals are multiplied by on their way to the eye, before GL_NORMALIZE."""
    rows = normal_rows(modelview)
    return rescaled(rows) if values["GL_RESCALE_NORMAL"] and not values["GL_NORMALIZE"] else rows


class Lighting:
    """The lights of a state under a modelview matrix. Lamps are kept from one to the next."""

    def __init__(self, values, modelview, lamps):
        self.rows, self.unit = rows_of_normals(values, modelview), values["GL_NORMALIZE"]
        self.model = values["model"]
        self.lamps = [kept_lamp(lamps, values["light%d" % i], self.model.local)
                      for i in range(8) if values["GL_LIGHT%d" % i]]
        self.tracks = values["color_material"] if values["GL_COLOR_MATERIAL"] else None
        # Whether a colour depends on the normal and the material alone.
        self.far = all(lamp.half and not lamp.spot for lamp in self.lamps)
        self.known, self.terms, self.kept = {}, {}, []

    def shines(self, values):
        """Whether a highlight is apart from the other colours, where there is any."""
        return self.model.separate and any(any(lamp.light.specular[:3]) for lamp in self.lamps) \
            and any(any(values[side].specular[:3]) for side in ("front", "back"))

    def tracked(self, side):
        """The fields of a side's material that the current colour stands for."""
        face, mode = self.tracks or ("", "")
        holds = face == "GL_FRONT_AND_BACK" or face == ("GL_FRONT" if side > 0 else "GL_BACK")
        return TRACKED.get(mode, ()) if holds else ()

    def colors(self, eyes, normals, colors, materials, side):
        """A colour of four channels from 0 to 1 for each vertex."""
        fields, known, found = self.tracked(side), self.known, []
        for i, normal in enumerate(normals):
            material, color = materials[i], colors[i] if fields else None
            key = (normal, color, id(material), side)
            shade = known.get(key) if self.far else None
            if shade is None:
                terms = self.terms_of(material, color, fields)
                shade = self.lit(eyes[i] if eyes else None, normal, terms, side)
                if self.far:
                    known[key] = shade
            found.append(shade)
        return found

    def terms_of(self, material, color, fields):
        """What a material adds to each light: products of their colours."""
        key = (id(material), color)
        if key not in self.terms:
            self.kept.append(material)      # an id is one material's while that exists
            if fields:
                material = material._replace(**dict.fromkeys(fields, color))
            base = [e + a * m for e, a, m in zip(material.emission[:3], self.model.ambient,
                                                 material.ambient)]
            lights = [(lamp, products(lamp.light.ambient, material.ambient),
                       products(lamp.light.diffuse, material.diffuse),
                       products(lamp.light.specular, material.specular)) for lamp in self.lamps]
            self.terms[key] = base, lights, material.shininess, material.diffuse[3]
        return self.terms[key]

    def lit(self, eye, normal, terms, side):
        (a, b, c), (d, e, f), (g, h, i) = self.rows
        x, y, z = normal
        nx, ny, nz = a * x + b * y + c * z, d * x + e * y + f * z, g * x + h * y + i * z
        if self.unit:
            side /= math.sqrt(nx * nx + ny * ny + nz * nz) or 1.0
        nx, ny, nz = nx * side, ny * side, nz * side
        (red, green, blue), lights, shininess, alpha = terms
        point, view = self.seen(eye)
        for lamp, ambient, diffuse, specular in lights:
            to, strength = lamp.reach(point)
            facing = nx * to[0] + ny * to[1] + nz * to[2]
            shine = 0.0
            if facing > 0.0:
                half = lamp.half or unit((to[0] + view[0], to[1] + view[1], to[2] + view[2]))
                cosine = nx * half[0] + ny * half[1] + nz * half[2]
                shine = cosine ** shininess if cosine > 0.0 else 0.0 ** shininess
            else:
                facing = 0.0
            red += strength * (ambient[0] + facing * diffuse[0] + shine * specular[0])
            green += strength * (ambient[1] + facing * diffuse[1] + shine * specular[1])
            blue += strength * (ambient[2] + facing * diffuse[2] + shine * specular[2])
        return red, green, blue, alpha

    def seen(self, eye):
        """A vertex' place and the direction from it to the viewer."""
        if eye is None:
            return None, (0.0, 0.0, 1.0)
        x, y, z, w = eye
        point = (x / w, y / w, z / w) if w else (x, y, z)
        view = unit((-point[0], -point[1], -point[2])) if self.model.local else (0.0, 0.0, 1.0)
        return point, view
