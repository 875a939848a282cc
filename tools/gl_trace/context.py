"""The state of an OpenGL context: values by name, so that groups of them can be pushed."""
import collections

from .matrices import IDENTITY

Material = collections.namedtuple("Material", "ambient diffuse specular emission shininess")
Light = collections.namedtuple("Light", "ambient diffuse specular position direction exponent "
                                        "cutoff constant linear quadratic")
Fog = collections.namedtuple("Fog", "mode density start end color")
LightModel = collections.namedtuple("LightModel", "ambient local two_sided separate")
PointLaw = collections.namedtuple("PointLaw", "attenuation least most")
Generation = collections.namedtuple("Generation", "mode object_plane eye_plane")

BLACK, WHITE = (0.0, 0.0, 0.0, 1.0), (1.0, 1.0, 1.0, 1.0)
PLAIN = Material((0.2, 0.2, 0.2, 1.0), (0.8, 0.8, 0.8, 1.0), BLACK, BLACK, 0.0)
LIGHTS, PLANES = range(8), range(6)
MOST_POINT = 256.0      # pixels of a point's side
# Newer names that apitrace prints for what OpenGL 1.x has others for.
OLDER = {**{f"GL_CLIP_DISTANCE{i}": f"GL_CLIP_PLANE{i}" for i in PLANES},
         "GL_INDEX_LOGIC_OP": "GL_LOGIC_OP", "GL_FOG_COORD": "GL_FOG_COORDINATE",
         "GL_FOG_COORD_SRC": "GL_FOG_COORDINATE_SOURCE",
         **{f"GL_SRC{i}_{part}": f"GL_SOURCE{i}_{part}" for i in range(3)
            for part in ("RGB", "ALPHA")}}

CAPABILITIES = [
    *(f"GL_LIGHT{i}" for i in LIGHTS), *(f"GL_CLIP_PLANE{i}" for i in PLANES),
    *("GL_TEXTURE_GEN_" + c for c in "STRQ"),
    *("GL_" + name for name in (
        "LIGHTING FOG TEXTURE_1D TEXTURE_2D TEXTURE_3D TEXTURE_CUBE_MAP TEXTURE_RECTANGLE "
        "POINT_SPRITE DEPTH_TEST BLEND ALPHA_TEST SCISSOR_TEST CULL_FACE "
        "COLOR_MATERIAL NORMALIZE RESCALE_NORMAL POLYGON_OFFSET_FILL LINE_SMOOTH POINT_SMOOTH "
        "DITHER MULTISAMPLE POLYGON_SMOOTH LINE_STIPPLE STENCIL_TEST POLYGON_STIPPLE "
        "COLOR_LOGIC_OP AUTO_NORMAL VERTEX_PROGRAM_ARB FRAGMENT_PROGRAM_ARB").split())]
# Those that a scene hasn't, and those that it draws without what they ask for, with the
# primitives that each is about.
EVERY, LINES, POINTS, POLYGONS = "every", "lines", "points", "polygons"
OTHER_TEXTURES = ("GL_TEXTURE_3D", "GL_TEXTURE_CUBE_MAP", "GL_TEXTURE_RECTANGLE")
WITHOUT = {**dict.fromkeys(OTHER_TEXTURES, EVERY), "GL_LINE_STIPPLE": LINES,
           "GL_STENCIL_TEST": EVERY, "GL_POLYGON_STIPPLE": POLYGONS,
           "GL_COLOR_LOGIC_OP": EVERY, "GL_VERTEX_PROGRAM_ARB": EVERY,
           "GL_FRAGMENT_PROGRAM_ARB": EVERY}
NEARLY = {"GL_POLYGON_SMOOTH": POLYGONS}

# What each bit of glPushAttrib keeps.
GROUPS = {
    "GL_CURRENT_BIT": "color normal coordinate raster",
    "GL_ENABLE_BIT": " ".join(CAPABILITIES),
    "GL_FOG_BIT": "GL_FOG fog",
    "GL_LIGHTING_BIT": "GL_LIGHTING GL_COLOR_MATERIAL shade color_material front back model "
                       + " ".join(f"GL_LIGHT{i} light{i}" for i in LIGHTS),
    "GL_COLOR_BUFFER_BIT": "GL_ALPHA_TEST GL_BLEND GL_COLOR_LOGIC_OP alpha_func blend_func "
                           "blend_alpha blend_color blend_equation color_mask clear_color",
    "GL_DEPTH_BUFFER_BIT": "GL_DEPTH_TEST depth_func depth_mask clear_depth",
    "GL_STENCIL_BUFFER_BIT": "GL_STENCIL_TEST",
    "GL_VIEWPORT_BIT": "viewport depth_range",
    "GL_TRANSFORM_BIT": "matrix_mode GL_NORMALIZE GL_RESCALE_NORMAL "
                        + " ".join(f"GL_CLIP_PLANE{i}" for i in PLANES),
    "GL_TEXTURE_BIT": "GL_TEXTURE_1D GL_TEXTURE_2D texture1 texture2 environment generation "
                      "sprites " + " ".join((*OTHER_TEXTURES, *("GL_TEXTURE_GEN_" + c for c in "STRQ"))),
    "GL_SCISSOR_BIT": "GL_SCISSOR_TEST scissor",
    "GL_POLYGON_BIT": "GL_CULL_FACE cull_face front_face polygon_mode GL_POLYGON_OFFSET_FILL "
                      "GL_POLYGON_SMOOTH GL_POLYGON_STIPPLE offset",
    "GL_LINE_BIT": "line_width GL_LINE_SMOOTH GL_LINE_STIPPLE",
    "GL_POINT_BIT": "point_size point_law GL_POINT_SMOOTH GL_POINT_SPRITE",
    "GL_LIST_BIT": "list_base",
    "GL_POLYGON_STIPPLE_BIT": "GL_POLYGON_STIPPLE", "GL_PIXEL_MODE_BIT": "zoom",
}


def first_values():
    values = dict.fromkeys(CAPABILITIES, False)
    values.update(
        color=WHITE, normal=(0.0, 0.0, 1.0), coordinate=BLACK, matrix_mode="GL_MODELVIEW",
        viewport=None, depth_range=(0.0, 1.0), scissor=None, shade="GL_SMOOTH",
        color_material=("GL_FRONT_AND_BACK", "GL_AMBIENT_AND_DIFFUSE"), front=PLAIN, back=PLAIN,
        model=LightModel((0.2, 0.2, 0.2, 1.0), False, False, False),
        alpha_func=("GL_ALWAYS", 0.0),
        blend_func=("GL_ONE", "GL_ZERO"), blend_alpha=None, blend_equation="GL_FUNC_ADD",
        blend_color=(0.0,) * 4,
        raster=(0.0, 0.0, 0.0, (255.0,) * 4), zoom=(1.0, 1.0),
        program=0, framebuffer=0, further=frozenset(), color_mask=(1, 1, 1, 1),
        clear_color=(0.0,) * 4,
        depth_func="GL_LESS", depth_mask=1, clear_depth=1.0, texture1=0, texture2=0,
        environment="GL_MODULATE", generation={}, cull_face="GL_BACK", front_face="GL_CCW",
        polygon_mode=("GL_FILL",) * 2, offset=(0.0, 0.0), line_width=1.0, point_size=1.0,
        point_law=PointLaw((1.0, 0.0, 0.0), 0.0, MOST_POINT), sprites=False,
        list_base=0,
        unit=0, fog=Fog("GL_EXP", 1.0, 0.0, 1.0, (0.0,) * 4))
    for i in LIGHTS:
        shine = WHITE if i == 0 else BLACK
        values[f"light{i}"] = Light(BLACK, shine, shine, (0.0, 0.0, 1.0, 0.0), (0.0, 0.0, -1.0),
                                    0.0, 180.0, 1.0, 0.0, 0.0)
    return values


class Context:
    """Values by name, matrix stacks, what was pushed, clip planes, arrays, and pixel stores."""

    def __init__(self):
        self.values = first_values()
        self.stacks = {name: [IDENTITY] for name in ("GL_MODELVIEW", "GL_PROJECTION", "GL_TEXTURE")}
        self.pushed, self.pushed_client = [], []
        self.planes, self.arrays, self.store = {}, {}, {}
        self.vertex_array, self.vertex_arrays = 0, {}   # by name: arrays and buffer of elements
