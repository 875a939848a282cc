"""What drawing needs of a context's state, made once for all primitives between two changes."""
from .baking import Mipmap
from .context import EVERY, LINES, NEARLY, OTHER_TEXTURES, POINTS, POLYGONS, WITHOUT
from .fog import FogLaw
from .items import FACES, FACTORS, FUNCTIONS, State, channels
from .lighting import Lighting, rows_of_normals
from .matrices import IDENTITY, multiply

TINY = 1e-7     # the least w
GUARD = 16.0    # what reaches further out than so many viewports is clipped
# What is kept: in front of the eye, between near and far, and in the guard band to all sides.
PLANES = [lambda v: v[3] - TINY, lambda v: v[2] + v[3], lambda v: v[3] - v[2],
          lambda v: GUARD * v[3] + v[0], lambda v: GUARD * v[3] - v[0],
          lambda v: GUARD * v[3] + v[1], lambda v: GUARD * v[3] - v[1]]
STROKES = {"GL_POINTS": POINTS, "GL_LINES": LINES, "GL_LINE_STRIP": LINES, "GL_LINE_LOOP": LINES}
GENERATED = {"GL_SPHERE_MAP", "GL_OBJECT_LINEAR", "GL_EYE_LINEAR"}
EQUAL = FUNCTIONS["GL_EQUAL"]
# Factors by the alpha of a constant colour, with those by the fragment's.
CONSTANT = {"GL_CONSTANT_ALPHA": "GL_SRC_ALPHA",
            "GL_ONE_MINUS_CONSTANT_ALPHA": "GL_ONE_MINUS_SRC_ALPHA"}
FIRST_DISTANCE = 10     # of a corner: where its distances to clip planes begin


def told_of(values):
    """What a scene draws otherwise than these values ask for: a kind, what it is, and of what."""
    told = [("left out", f"glEnable({name})", of) for name, of in WITHOUT.items() if values[name]]
    told += [("approximated", f"glEnable({name})", of) for name, of in NEARLY.items()
             if values[name]]
    if values["program"]:
        told.append(("left out", "glUseProgram", EVERY))
    if values["further"]:
        told.append(("left out", "glEnable of a further texture unit", EVERY))
    if values["GL_BLEND"]:
        told += [("approximated", what, EVERY) for what in blending(values)]
    return told


def blending(values):
    """What of a blending is another one in a scene."""
    factors, alphas = values["blend_func"], values["blend_alpha"]
    known = set(FACTORS) if constant_alpha(values) is None else {*FACTORS, *CONSTANT}
    found = [f"glBlendFunc({factor})" for factor in sorted(set(map(str, factors)) - known)]
    if alphas and tuple(alphas) != factors:
        found.append("glBlendFuncSeparate, whose factors of alpha are those of the colours")
    if values["blend_equation"] != "GL_FUNC_ADD":
        found.append(f"glBlendEquation({values['blend_equation']})")
    return found


def tests_alpha(values):
    """Whether the alpha test leaves fragments out."""
    return values["GL_ALPHA_TEST"] and values["alpha_func"][0] != "GL_ALWAYS"


def constant_alpha(values):
    """The alpha of glBlendColor, where blending takes that in place of the fragment's and nothing
    else takes the fragment's: then fragments are given it."""
    factors = {*values["blend_func"], *(values["blend_alpha"] or ())}
    if not values["GL_BLEND"] or tests_alpha(values) or not factors & set(CONSTANT) \
            or any("ALPHA" in str(factor) for factor in factors - set(CONSTANT)):
        return None
    return max(0.0, min(1.0, values["blend_color"][3]))


class Setting:
    """Matrices, lights, fog and texture of a state, and the states of blocks that come of it."""

    def __init__(self, machine):
        context, values = machine.context, machine.values
        self.machine, self.values, self.stacks = machine, values, context.stacks
        self.modelview = self.stacks["GL_MODELVIEW"][-1]
        self.whole = multiply(self.stacks["GL_PROJECTION"][-1], self.modelview)
        self.viewport = values["viewport"]
        self.flat = values["shade"] == "GL_FLAT"
        self.front, self.back = values["front"], values["back"]
        self.lighting = Lighting(values, self.modelview, machine.lamps) \
            if values["GL_LIGHTING"] else None
        self.two_sided = values["GL_LIGHTING"] and values["model"].two_sided
        self.fog = FogLaw(values["fog"]) if values["GL_FOG"] else None
        self.planes = [plane for name, plane in sorted(context.planes.items()) if values.get(name)]
        self.clips = PLANES
        if self.planes:
            self.clips = PLANES + [lambda v, i=FIRST_DISTANCE + i: v[i]
                                   for i in range(len(self.planes))]
        self.offset = values["offset"] if values["GL_POLYGON_OFFSET_FILL"] else None
        self.told, self.constant = told_of(values), constant_alpha(values)
        self.states, self.scissor = {}, machine.scissor()
        self.use_texture()
        self.veil = self.texture and self.fog and self.has_veil()
        lit_by_place = self.lighting and not self.lighting.far
        self.needs_eyes = bool(self.fog or lit_by_place or self.planes or self.generated)

    def use_texture(self):
        """The texture that is sampled, how coordinates are made, and what texels do to colours."""
        values, machine = self.values, self.machine
        names = [name for name in (*OTHER_TEXTURES, "GL_TEXTURE_2D", "GL_TEXTURE_1D")
                 if values[name]]
        is_drawn = names and names[0] not in OTHER_TEXTURES
        texture = machine.texture(names[0]) if is_drawn else None
        self.texture = texture if texture and texture.get("image") else None
        if self.texture and self.constant is not None:
            self.texture = {**texture, "image": texture["image"].opaque()}
        if texture and "copied" in texture:
            self.told.append(("left out", texture["copied"], EVERY))
        self.generated, self.texture_matrix, self.normals = [], None, None
        self.replaces, self.keeps = 0, None
        if not self.texture:
            return
        for i, letter in enumerate("STQ"):
            if values["GL_TEXTURE_GEN_" + letter]:
                self.generated.append((i if i < 2 else 3, values["generation"].get("GL_" + letter)))
        for mode in sorted({str(made.mode) for _, made in self.generated if made} - GENERATED):
            self.told.append(("approximated", f"glTexGen({mode})", EVERY))
        if any(made and made.mode == "GL_SPHERE_MAP" for _, made in self.generated):
            self.normals = rows_of_normals(values, self.modelview)
        if self.lighting and self.lighting.shines(values):
            self.told.append(("approximated", "glLightModel(GL_SEPARATE_SPECULAR_COLOR)", EVERY))
        if self.texture.get("GL_TEXTURE_MAX_ANISOTROPY_EXT", 1) > 1:
            self.told.append(("approximated", "GL_TEXTURE_MAX_ANISOTROPY_EXT", POLYGONS))
        matrix = self.stacks["GL_TEXTURE"][-1]
        self.texture_matrix = None if matrix == IDENTITY else matrix
        self.use_environment(self.texture["image"], values["environment"])

    def use_environment(self, image, mode):
        """MODULATE as it is; REPLACE where the texture has all channels, else MODULATE with white
        in the channels that it has, so that the others stay those of the fragment."""
        if mode in ("GL_REPLACE", "GL_DECAL"):
            if image.has_alpha:
                self.replaces = 1
                if mode == "GL_DECAL":
                    self.told.append(("approximated", "GL_DECAL of a texture with alpha", EVERY))
            else:
                self.keeps = "color" if image.base == "ALPHA" else "alpha"
        elif mode != "GL_MODULATE":
            self.told.append(("approximated", f"glTexEnv({mode})", EVERY))

    def concerns(self, mode):
        """What is told of a primitive of this mode, whatever it draws."""
        kind = STROKES.get(mode, POLYGONS)
        outlined = kind == POLYGONS and "GL_LINE" in self.values["polygon_mode"]
        return [note[:2] for note in self.told
                if note[2] in (EVERY, kind) or outlined and note[2] == LINES]

    def has_veil(self):
        """Whether fog is laid over a texture by blocks of its own, for which fragments have to be
        opaque, and w the distance from the viewer. Else it is laid over colours under it."""
        last = self.stacks["GL_PROJECTION"][-1][3::4], self.modelview[3::4]
        veiled = last == ((0.0, 0.0, -1.0, 0.0), (0.0, 0.0, 0.0, 1.0)) \
            and not (self.values["GL_BLEND"] or tests_alpha(self.values))
        if not veiled:
            self.told.append(("approximated", "fog under a texture", EVERY))
        return veiled

    def veil_state(self, state):
        """Of blocks that lay fog over those of a state: where these were drawn, and no others."""
        depth = state.depth and ((EQUAL, 0) if state.depth[1] else (state.depth[0], 0))
        return state._replace(depth=depth, blend=(FACTORS["GL_SRC_ALPHA"],
                                                  FACTORS["GL_ONE_MINUS_SRC_ALPHA"]), texture=None)

    def mipmapped(self):
        return "MIPMAP" in self.minifier()

    def mipmap(self):
        """How images of a mipmap are chosen; None where a texture has none."""
        if not self.mipmapped():
            return None
        return Mipmap(float(self.texture.get("GL_TEXTURE_LOD_BIAS", 0.0)),
                      self.minifier().endswith("MIPMAP_LINEAR"), self.is_linear(False))

    def minifier(self):
        return str(self.texture.get("GL_TEXTURE_MIN_FILTER", "GL_NEAREST_MIPMAP_LINEAR"))

    def is_linear(self, minified):
        """Whether texels are mixed, of a texture that is shown smaller or larger than it is."""
        if minified:
            return self.minifier().startswith("GL_LINEAR")
        return self.texture.get("GL_TEXTURE_MAG_FILTER") != "GL_NEAREST"

    def clamps(self):
        """Whether coordinates are held to the texture, in s and in t."""
        return tuple("CLAMP" in str(self.texture.get("GL_TEXTURE_WRAP_" + c, "GL_REPEAT"))
                     for c in "ST")

    def culls(self, is_front):
        """Whether a polygon of this facing is left out."""
        face = self.values["cull_face"]
        return self.values["GL_CULL_FACE"] and (
            face == "GL_FRONT_AND_BACK" or is_front == (face == "GL_FRONT"))

    def state(self, level=None, parted=False, cull=True, turned=False):
        """The state of a block: with culling or without, turned where its winding is, and with
        this image as its texture."""
        key = level, parted, cull, turned
        if key not in self.states:
            self.states[key] = self.made_state(level, parted, cull, turned)
        return self.states[key]

    def made_state(self, level, parted, cull, turned):
        values, alpha, depth, blend, culled, texture = self.values, None, None, None, None, None
        if tests_alpha(values):
            function, reference = values["alpha_func"]
            alpha = FUNCTIONS[function], channels((reference,))[0]
        if values["GL_DEPTH_TEST"]:
            depth = FUNCTIONS[values["depth_func"]], values["depth_mask"]
        if values["GL_BLEND"]:
            blend = tuple(FACTORS.get(CONSTANT.get(factor, factor), 1)
                          for factor in values["blend_func"])
        if values["GL_CULL_FACE"] and cull:
            clockwise = values["front_face"] == "GL_CW"
            culled = FACES[values["cull_face"]], int(clockwise != turned)
        if level:
            wraps = (1, 1) if parted else tuple(map(int, self.clamps()))
            texture = level, self.replaces, wraps
        depths = tuple(round(65536 * max(0.0, min(1.0, x))) for x in values["depth_range"])
        return State(self.viewport, depths, self.scissor, alpha, depth, blend,
                     values["color_mask"], culled, texture)
