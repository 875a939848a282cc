"""Calls that set values of a context: capabilities, attributes, lights, materials, fog, clears."""
from .context import CAPABILITIES, GROUPS, MOST_POINT, NEARLY, OLDER, WITHOUT
from .faults import Refused
from .items import FACTORS, FUNCTIONS, Clear, channels
from .lighting import TRACKED
from .limits import MOST_SIDE, MOST_STACK
from .matrices import transform

FOG_FIELDS = {"GL_FOG_MODE": "mode", "GL_FOG_DENSITY": "density", "GL_FOG_START": "start",
              "GL_FOG_END": "end", "GL_FOG_COLOR": "color"}
FOG_MODES = {2048: "GL_EXP", 2049: "GL_EXP2", 9729: "GL_LINEAR"}
LIGHT_FIELDS = {"GL_AMBIENT": "ambient", "GL_DIFFUSE": "diffuse", "GL_SPECULAR": "specular",
                "GL_POSITION": "position", "GL_SPOT_DIRECTION": "direction",
                "GL_SPOT_EXPONENT": "exponent", "GL_SPOT_CUTOFF": "cutoff",
                "GL_CONSTANT_ATTENUATION": "constant", "GL_LINEAR_ATTENUATION": "linear",
                "GL_QUADRATIC_ATTENUATION": "quadratic"}
MATERIAL_FIELDS = {**TRACKED, "GL_SHININESS": ("shininess",), "GL_COLOR_INDEXES": ()}
POINT_FIELDS = {"GL_POINT_DISTANCE_ATTENUATION": "attenuation", "GL_POINT_SIZE_MIN": "least",
                "GL_POINT_SIZE_MAX": "most"}
BUFFERS = ("GL_COLOR_BUFFER_BIT", "GL_DEPTH_BUFFER_BIT")


def true(flag):
    """Whether a flag is on, by any of the names that apitrace has for 0."""
    return flag not in (0, "GL_FALSE", "GL_ZERO", "GL_NONE", "GL_POINTS", "GL_NO_ERROR")


def names_of(mask):
    return mask if isinstance(mask, (tuple, list)) else (mask,)


class StateCalls:
    """What a machine does at these calls."""

    # -- capabilities and attributes --

    def do_Enable(self, name, on=True):
        name = OLDER.get(name, name)
        if str(name).startswith("GL_TEXTURE") and self.beyond_first("glEnable"):
            change = {self.values["unit"]} if not str(name).startswith("GL_TEXTURE_GEN") else set()
            further = self.values["further"]
            self.values["further"] = further | change if on else further - change
            return
        if on and (name not in CAPABILITIES or name in WITHOUT):
            self.notes.left_out(f"glEnable({name})", name in WITHOUT)
        if on and name in NEARLY:
            self.notes.approximated(f"glEnable({name})", True)
        if name == "GL_COLOR_MATERIAL" and self.values[name] and not on:
            self.settle_material()
        if name in CAPABILITIES:
            self.values[name] = on

    def do_Disable(self, name):
        self.do_Enable(name, False)

    def do_PushAttrib(self, mask):
        names = names_of(mask)
        if any(name == "GL_ALL_ATTRIB_BITS" or isinstance(name, int) for name in names):
            names = list(GROUPS)
        if len(self.context.pushed) >= MOST_STACK:
            raise Refused(f"more than {MOST_STACK} groups of attributes are pushed")
        keys = {key for name in names for key in GROUPS.get(name, "").split()}
        self.context.pushed.append({key: self.values[key] for key in keys})

    def do_PopAttrib(self):
        if self.context.pushed:
            self.values.update(self.context.pushed.pop())

    def do_PushClientAttrib(self, mask):
        if len(self.context.pushed_client) >= MOST_STACK:
            raise Refused(f"more than {MOST_STACK} groups of attributes are pushed")
        self.context.pushed_client.append((dict(self.context.arrays), dict(self.context.store)))

    def do_PopClientAttrib(self):
        if self.context.pushed_client:
            self.context.arrays, self.context.store = self.context.pushed_client.pop()

    # -- current values --

    def do_Normal(self, x, y, z):
        self.values["normal"] = (x, y, z)

    def do_Color(self, r, g, b, a=1.0):
        self.values["color"] = (r, g, b, a)

    def do_TexCoord(self, s, t=0.0, r=0.0, q=1.0):
        self.values["coordinate"] = (s, t, r, q)

    def do_MultiTexCoord(self, unit, *coordinate):
        if unit == "GL_TEXTURE0":
            self.do_TexCoord(*coordinate)

    # -- window and fragments --

    def do_Viewport(self, x, y, w, h):
        if max(w, h) > MOST_SIDE:
            raise Refused(f"a viewport of {w} by {h} pixels, and a scene's sides are at most "
                          f"{MOST_SIDE}: trace the program in a smaller window")
        x, y = (max(-32768, min(32767, int(place))) for place in (x, y))
        self.values["viewport"] = (x, y, max(0, int(w)), max(0, int(h)))
        self.see_window(x, y, int(w), int(h))

    def do_Scissor(self, x, y, w, h):
        x, y = (max(-32768, min(32767, int(place))) for place in (x, y))
        self.values["scissor"] = (x, y, max(0, min(65535, int(w))), max(0, min(65535, int(h))))

    def do_DepthRange(self, near, far):
        self.values["depth_range"] = (float(near), float(far))

    def do_AlphaFunc(self, function, reference):
        if function in FUNCTIONS:
            self.values["alpha_func"] = (function, float(reference))

    def do_DepthFunc(self, function):
        if function in FUNCTIONS:
            self.values["depth_func"] = function

    def do_DepthMask(self, flag):
        self.values["depth_mask"] = int(true(flag))

    def do_BlendFunc(self, source, destination):
        self.values["blend_func"], self.values["blend_alpha"] = (source, destination), None

    def do_BlendFuncSeparate(self, source, destination, *alphas):
        self.values["blend_func"], self.values["blend_alpha"] = (source, destination), alphas

    def do_BlendColor(self, *color):
        self.values["blend_color"] = tuple(map(float, color))

    def do_BlendEquation(self, equation):
        self.values["blend_equation"] = equation

    def do_BlendEquationSeparate(self, equation, of_alpha):
        self.do_BlendEquation(equation)

    # -- what draws otherwise than by these values --

    def do_UseProgram(self, program):
        self.notes.left_out("glUseProgram", True)
        self.values["program"] = program

    def do_UseProgramObject(self, program):
        self.do_UseProgram(program)

    def do_BindFramebuffer(self, target, name):
        if target != "GL_READ_FRAMEBUFFER":
            self.values["framebuffer"] = name

    def do_ColorMask(self, red, green, blue, alpha):
        self.values["color_mask"] = tuple(int(true(flag)) for flag in (red, green, blue, alpha))

    def do_ClearColor(self, red, green, blue, alpha):
        self.values["clear_color"] = tuple(map(float, (red, green, blue, alpha)))

    def do_ClearDepth(self, depth):
        self.values["clear_depth"] = max(0.0, min(1.0, depth))

    def do_CullFace(self, face):
        if face in ("GL_FRONT", "GL_BACK", "GL_FRONT_AND_BACK"):
            self.values["cull_face"] = face

    def do_FrontFace(self, direction):
        self.values["front_face"] = direction

    def do_ShadeModel(self, model):
        self.values["shade"] = model

    def do_PolygonMode(self, face, mode):
        front, back = self.values["polygon_mode"]
        self.values["polygon_mode"] = (front if face == "GL_BACK" else mode,
                                       back if face == "GL_FRONT" else mode)

    def do_PolygonOffset(self, factor, units):
        self.values["offset"] = (float(factor), float(units))

    def do_LineWidth(self, width):
        self.values["line_width"] = max(1.0, min(64.0, width))

    def do_PointSize(self, size):
        self.values["point_size"] = max(1.0, min(MOST_POINT, size))

    def do_PointParameter(self, name, *numbers):
        field = POINT_FIELDS.get(name)
        if field:
            value = tuple(map(float, numbers)) if field == "attenuation" else float(numbers[0])
            self.values["point_law"] = self.values["point_law"]._replace(**{field: value})
        else:
            self.notes.left_out(f"glPointParameter({name})")

    def do_Clear(self, mask):
        if not self.wanted:
            return
        names = names_of(mask)
        for name in {name for name in names if name not in BUFFERS}:
            self.notes.left_out(f"glClear({name})")
        bits = sum(1 << i for i, name in enumerate(BUFFERS) if name in names)
        size = self.size_now()
        if not bits or size is None or self.values["framebuffer"]:
            return
        values, scissor = self.values, self.scissor()
        x, y, w, h = scissor or (0, 0, *size)
        box = (max(0, x), max(0, y), min(size[0], x + w), min(size[1], y + h))
        self.drawn_in.add(self.window)
        self.items.append(Clear(scissor, values["color_mask"], values["depth_mask"],
                                channels(values["clear_color"]),
                                round(65536 * values["clear_depth"]), bits, box))

    # -- light --

    def do_Fog(self, name, *numbers):
        if name in FOG_FIELDS:
            field = FOG_FIELDS[name]
            value = tuple(numbers) if field == "color" else numbers[0]
            if field == "mode":
                value = FOG_MODES.get(value, value)
            elif field != "color":
                value = float(value)
            self.values["fog"] = self.values["fog"]._replace(**{field: value})

    def do_Light(self, light, name, *numbers):
        key, modelview = light.lower().replace("gl_", ""), self.context.stacks["GL_MODELVIEW"][-1]
        if key not in self.values or name not in LIGHT_FIELDS:
            return
        field = LIGHT_FIELDS[name]
        if field == "position":
            numbers = transform(modelview, *numbers)
        elif field == "direction":
            numbers = transform(modelview, *numbers, 0.0)[:3]
        value = float(numbers[0]) if len(numbers) == 1 else tuple(map(float, numbers))
        self.values[key] = self.values[key]._replace(**{field: value})

    def do_LightModel(self, name, *numbers):
        model = self.values["model"]
        if name == "GL_LIGHT_MODEL_AMBIENT":
            model = model._replace(ambient=tuple(map(float, numbers)))
        elif name == "GL_LIGHT_MODEL_LOCAL_VIEWER":
            model = model._replace(local=true(numbers[0]))
        elif name == "GL_LIGHT_MODEL_TWO_SIDE":
            model = model._replace(two_sided=true(numbers[0]))
        elif name == "GL_LIGHT_MODEL_COLOR_CONTROL":
            model = model._replace(separate="SEPARATE" in str(numbers[0]))
        self.values["model"] = model

    def set_material(self, face, fields, value):
        """A value of a material; within a glBegin the vertices that follow have it."""
        values = self.values
        for side in {"GL_FRONT": ("front",), "GL_BACK": ("back",)}.get(face, ("front", "back")):
            values[side] = values[side]._replace(**dict.fromkeys(fields, value))
        if self.open is not None:
            self.open.materials.append((len(self.open.points), values["front"], values["back"]))

    def do_Material(self, face, name, *numbers):
        value = tuple(map(float, numbers))
        if name == "GL_SHININESS":
            value = max(0.0, min(128.0, value[0]))
        self.set_material(face, MATERIAL_FIELDS[name], value)

    def do_ColorMaterial(self, face, mode):
        if self.values["GL_COLOR_MATERIAL"]:
            self.settle_material()
        self.values["color_material"] = (face, mode)

    def settle_material(self):
        """What the current colour tracks keeps it when it no longer tracks."""
        face, mode = self.values["color_material"]
        self.set_material(face, TRACKED[mode], self.values["color"])
