"""States that change what a primitive is: kinds of textures and points, and constant colours."""
import unittest

from .drawing import Light
from .hand_traces import (CLEAR, PLANE, SWAP, WINDOW, blob, colors, converted, image, pickled,
                          places, primitive, scene, textured)

FACE = textured((0, 0, 0, 0), (64, 0, 1, 0), (64, 64, 1, 1), (0, 64, 0, 1))
POINT = primitive("GL_POINTS", (10, 20))
WHITE = b"\xff" * 4


def told(*calls):
    """What is left out or approximated of a frame of these calls."""
    lines = converted(pickled(WINDOW, CLEAR, PLANE, *calls, SWAP)).lines
    return [line.removeprefix("from_apitrace: ") for line in lines[:-1]]


class Kinds(unittest.TestCase):
    def test_what_has_another_kind_of_texture_is_drawn_without_one_and_told(self):
        # A cube map comes before the texture of two dimensions that is on too.
        for kind in ("GL_TEXTURE_CUBE_MAP", "GL_TEXTURE_3D", "GL_TEXTURE_RECTANGLE"):
            calls = [*image(1, 1, bytes(4)), ("glBindTexture", kind, 2), ("glEnable", kind), *FACE]
            self.assertEqual(told(*calls), [f"left out glEnable({kind}) 1: 4 vertices, "
                                            "4096 pixels"])
            block, = scene(*calls).blocks
            self.assertEqual((block.texels, colors(block)), (None, [(255,) * 3] * 4))
            block, = scene(*calls[:-len(FACE)], ("glDisable", kind), *FACE).blocks
            self.assertEqual(block.texels, (1, 1, bytes(4)))

    def test_a_highlight_apart_from_a_texture_is_told_where_there_is_one(self):
        shines = [*Light.LIGHT, ("glLightModeli", "GL_LIGHT_MODEL_COLOR_CONTROL",
                                 "GL_SEPARATE_SPECULAR_COLOR"), *image(1, 1, WHITE)]
        specular = ("glMaterialfv", "GL_FRONT", "GL_SPECULAR", [0.5, 0.5, 0.5, 1.0])
        line = "approximated glLightModel(GL_SEPARATE_SPECULAR_COLOR) 1: 4 vertices, 4096 pixels"
        self.assertEqual(told(*shines, specular, *FACE), [line])
        self.assertEqual(told(*shines, *FACE), [])
        self.assertEqual(told(*shines, specular, ("glDisable", "GL_TEXTURE_2D"), *FACE), [])


class Points(unittest.TestCase):
    def side(self, *calls):
        block, = scene(*calls, *POINT).blocks
        return places(block)[1][0] - places(block)[0][0]

    def test_a_point_grows_smaller_with_the_distance(self):
        # At depth 3 of the eye's: 12 / sqrt(1 + 3 + 3 * 3 / 3) is 12 / sqrt 7, and 12 / 3 by the
        # square alone.
        away = [("glPointSize", 12.0), ("glMatrixMode", "GL_PROJECTION"), ("glLoadIdentity",),
                ("glOrtho", 0.0, 64.0, 0.0, 64.0, -8.0, 8.0), ("glMatrixMode", "GL_MODELVIEW"),
                ("glTranslatef", 0.0, 0.0, -3.0)]
        for law, side in (((1.0, 1.0, 1 / 3), 5), ((0.0, 0.0, 1.0), 4), ((1.0, 0.0, 0.0), 12)):
            self.assertEqual(self.side(*away, ("glPointParameterfv",
                                               "GL_POINT_DISTANCE_ATTENUATION", [*law])), side)
        self.assertEqual(self.side(*away, ("glPointParameterf", "GL_POINT_SIZE_MAX", 6.0)), 6)
        self.assertEqual(self.side(*away, ("glPointParameterf", "GL_POINT_SIZE_MIN", 14.0)), 14)

    def test_a_sprite_is_as_large_as_it_is_and_has_a_whole_texture(self):
        sprite = [("glEnable", "GL_POINT_SPRITE"), ("glPointSize", 4.5), *image(1, 1, WHITE)]
        replaced = ("glTexEnvi", "GL_POINT_SPRITE", "GL_COORD_REPLACE", "GL_TRUE")
        block, = scene(*sprite, replaced, *POINT).blocks
        self.assertEqual(places(block), [(7.75, 17.75), (12.25, 17.75), (12.25, 22.25),
                                         (7.75, 22.25)])
        self.assertEqual([vertex.coordinate for vertex in block.vertices],
                         [(0, 1), (1, 1), (1, 0), (0, 0)])
        block, = scene(*sprite, ("glTexCoord2f", 0.5, 0.25), *POINT).blocks
        self.assertEqual({vertex.coordinate for vertex in block.vertices}, {(0.5, 0.25)})


class Constants(unittest.TestCase):
    BLEND = [("glEnable", "GL_BLEND"), ("glBlendColor", 0.0, 0.0, 0.0, 0.4),
             ("glBlendFunc", "GL_CONSTANT_ALPHA", "GL_ONE_MINUS_CONSTANT_ALPHA")]

    def test_blending_by_a_constant_alpha_gives_it_to_the_fragments(self):
        calls = [*self.BLEND, *image(1, 1, bytes((9, 8, 7, 6))), ("glColor4f", 1.0, 1.0, 1.0, 0.5)]
        block, = scene(*calls, *FACE).blocks
        self.assertEqual(block.state["BlendFunc"], (6, 7))
        self.assertEqual(block.texels, (1, 1, bytes((9, 8, 7, 255))))
        self.assertEqual({vertex.color for vertex in block.vertices}, {(255, 255, 255, 102)})
        self.assertEqual(told(*calls, *FACE), [])

    def test_where_the_alpha_test_takes_the_own_alpha_it_is_told(self):
        test = [("glEnable", "GL_ALPHA_TEST"), ("glAlphaFunc", "GL_GREATER", 0.5)]
        self.assertEqual(told(*self.BLEND, *test, *FACE), [
            f"approximated glBlendFunc(GL_{name}CONSTANT_ALPHA) 1: 4 vertices, 4096 pixels"
            for name in ("", "ONE_MINUS_")])
        always = [test[0], ("glAlphaFunc", "GL_ALWAYS", 0.5)]
        self.assertEqual(told(*self.BLEND, *always, *FACE), [])


class VertexArrays(unittest.TestCase):
    def test_a_vertex_array_object_has_its_arrays_and_its_elements(self):
        square = blob("8f", 0, 0, 8, 0, 8, 8, 0, 8)
        calls = [("glBindVertexArray", 1), ("glBindBuffer", "GL_ARRAY_BUFFER", 1),
                 ("glBufferData", "GL_ARRAY_BUFFER", 32, square, "GL_STATIC_DRAW"),
                 ("glBindBuffer", "GL_ELEMENT_ARRAY_BUFFER", 2),
                 ("glBufferData", "GL_ELEMENT_ARRAY_BUFFER", 3, blob("3B", 0, 1, 3),
                  "GL_STATIC_DRAW"),
                 ("glVertexPointer", 2, "GL_FLOAT", 0, None),
                 ("glEnableClientState", "GL_VERTEX_ARRAY"), ("glBindVertexArray", 0)]
        draw = ("glDrawElements", "GL_TRIANGLES", 3, "GL_UNSIGNED_BYTE", 0)
        block, = scene(*calls, ("glBindVertexArray", 1), draw).blocks
        self.assertEqual(places(block), [(0, 0), (8, 0), (0, 8)])
        self.assertEqual(scene(*calls, ("glDrawArrays", "GL_TRIANGLES", 0, 3)).blocks, [])
