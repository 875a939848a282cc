"""Smooth lines and points, and what is drawn at the raster position."""
import unittest

from gl_trace.smooth import Coverage

from .hand_traces import (CLEAR, GREEN, PLANE, RED, SWAP, WINDOW, blob, colors, converted, image,
                          pickled, places, primitive, scene)

BLEND = [("glEnable", "GL_BLEND"), ("glBlendFunc", "GL_SRC_ALPHA", "GL_ONE_MINUS_SRC_ALPHA")]
SMOOTH = [("glEnable", "GL_LINE_SMOOTH"), ("glEnable", "GL_POINT_SMOOTH")]
LINE = primitive("GL_LINES", (8, 8), (24, 8))
AT = ("glRasterPos2f", 10.0, 20.0)


def alphas(block):
    return [vertex.color[3] for vertex in block.vertices]


def covered(block, left, low):
    """Alpha of the pixels of a block's image that have any, where it begins at these."""
    width, _, texels = block.texels
    return {(left + i % width, low + i // width): alpha
            for i, alpha in enumerate(texels[3::4]) if alpha}


class Smooth(unittest.TestCase):
    # Under a texture a line has no room for an image of its own, and is a strip that fades.
    WHITE = image(1, 1, b"\xff" * 4)

    def test_a_line_fades_over_a_pixel_to_each_side_and_half_a_pixel_beyond_each_end(self):
        block, = scene(*BLEND, *SMOOTH, *LINE).blocks
        self.assertEqual(places(block), [(7.5, 7), (24.5, 7), (24.5, 9), (7.5, 9)])
        self.assertEqual(covered(block, 6, 6), {(x, y): 128 for x in range(8, 24) for y in (7, 8)})

    def test_a_wide_line_is_whole_between_its_sides(self):
        block, = scene(*BLEND, *SMOOTH, ("glLineWidth", 3.0), *LINE).blocks
        self.assertEqual(places(block), [(7.5, 6), (24.5, 6), (24.5, 10), (7.5, 10)])
        rows = {6: 128, 7: 255, 8: 255, 9: 128}
        self.assertEqual(covered(block, 6, 5), {(x, y): rows[y] for x in range(8, 24)
                                                for y in rows})

    def test_a_long_line_has_pieces_with_an_image_each_and_the_colours_of_its_pixels(self):
        ends = primitive("GL_LINES", (8, 8), (40, 8), colors=[(1, 0, 0), (0, 0, 1)])
        first, second = scene(*BLEND, *SMOOTH, *ends).blocks
        self.assertEqual((places(first)[1], places(second)[0]), ((24, 7), (24, 7)))
        self.assertEqual({vertex.color for block in (first, second) for vertex in block.vertices},
                         {(255,) * 4})
        # Pixel 24's middle is 17 pixels from where the line begins, of 33.
        wide, _, texels = second.texels
        self.assertEqual(tuple(texels[4 * (wide + 24 - 23):][:4]),
                         (round(255 * 16 / 33), 0, round(255 * 17 / 33), 128))

    def test_under_a_texture_it_is_a_strip_that_fades_which_is_told(self):
        block, = scene(*BLEND, *SMOOTH, *self.WHITE, *LINE).blocks
        across = [7.5, 7.5, 8.5, 8.5, 23.5, 23.5, 24.5, 24.5]
        low = list(zip(across, [7, 8] * 4))
        high = list(zip(across, [8, 9] * 4))
        self.assertEqual(places(block), [*low, low[-1], high[0], *high])
        self.assertEqual(alphas(block), [0, 0, 0, 255, 0, 255, 0, 0, 0, 0, 0, 0, 255, 0, 255, 0, 0,
                                         0])
        made = converted(pickled(WINDOW, CLEAR, PLANE, *BLEND, *SMOOTH, *self.WHITE, *LINE, SWAP))
        self.assertIn("from_apitrace: approximated glEnable(GL_LINE_SMOOTH) 1: 2 vertices, "
                      "34 pixels", made.lines)

    def test_without_blending_a_line_has_no_edges(self):
        block, = scene(*SMOOTH, *LINE).blocks
        self.assertEqual(places(block), [(7.5, 7), (7.5, 9), (24.5, 7), (24.5, 9)])
        self.assertEqual(alphas(block), [255] * 4)

    def test_a_line_drawn_the_other_way_is_the_same(self):
        back = primitive("GL_LINES", (24, 8), (8, 8))
        first, second = scene(*BLEND, *SMOOTH, *LINE, *back).blocks
        self.assertEqual((first.vertices, first.texels), (second.vertices, second.texels))

    def test_a_line_far_out_ends_at_the_side_of_the_window(self):
        for end in (90, 300):
            blocks = scene(*BLEND, *SMOOTH, *primitive("GL_LINES", (8, 8), (end, 8))).blocks
            self.assertEqual(max(x for block in blocks for x, _ in places(block)), 64.5)

    def test_coverage_is_followed_in_perspective_by_two_triangles(self):
        # With w of 1 and 3 at its ends. Half way 1 / w is 2/3. The first triangle has its border
        # of full coverage where (side + 1) / (2/3) - 1 is 0, a third of a pixel from the middle;
        # three quarters of the way it lies beyond the diagonal, in the second triangle, where
        # 1 - (1 - side) / 3 / (1/2) is 0.
        cover = Coverage(16.0, 1.0, 1.0, 3.0, True)
        self.assertAlmostEqual(cover.sides(0.5)[1][0], -1 / 3)
        self.assertAlmostEqual(cover.sides(0.75)[1][0], -0.5)
        # A pixel's own coverage is one at that border, and half of it half way to the side.
        self.assertAlmostEqual(cover.at(0.5, -1 / 3), 1.0)
        self.assertAlmostEqual(cover.at(0.5, -2 / 3), 0.5)
        # The near end fades over less than a pixel, the far one over more.
        self.assertAlmostEqual(cover.stations[0], 1 / (17 / 3 - 1 / 3 + 1))
        self.assertAlmostEqual(cover.stations[1], 1 - (1 / 3) / (17 - 1 + 1 / 3))

    def test_fog_does_not_part_a_line(self):
        fog = [("glEnable", "GL_FOG"), ("glFogf", "GL_FOG_MODE", 2048.0),
               ("glFogf", "GL_FOG_DENSITY", 3.0)]
        slanting = [("glBegin", "GL_LINES"), ("glVertex3f", 8.0, 8.0, 1.0),
                    ("glVertex3f", 24.0, 8.0, -1.0), ("glEnd",)]
        block, = scene(*BLEND, *SMOOTH, *self.WHITE, *fog, *slanting).blocks
        middle = sorted((x, color[3]) for (x, y), color in
                        zip(places(block), (v.color for v in block.vertices)) if y == 8)
        self.assertGreater(len(middle), 8)
        self.assertEqual([alpha for x, alpha in middle if 8.5 <= x <= 23.5],
                         [255] * (len(middle) - 6))     # of which six are at the ends

    def test_a_point_is_round_by_the_pixel(self):
        # Of a point of two pixels where four meet, the middle of each is half a radius squared
        # away, and half of it is covered.
        block, = scene(*BLEND, *SMOOTH, ("glPointSize", 2.0),
                       *primitive("GL_POINTS", (10, 20))).blocks
        self.assertEqual({*places(block)}, {(x, y) for x in (9, 11) for y in (19, 20, 21)})
        self.assertEqual((len(block.vertices), set(alphas(block))), (12, {128}))


class Pixels(unittest.TestCase):
    STORE = ("glPixelStorei", "GL_UNPACK_ALIGNMENT", 1)

    def test_a_bitmap_is_rectangles_in_the_colour_of_the_raster_position(self):
        bits = blob("2B", 0b11000000, 0b11000001)
        bitmap = ("glBitmap", 8, 2, 1.0, 0.0, 9.0, 0.0, bits)
        first, second = scene(("glColor3ub", 255, 0, 0), AT, ("glColor3ub", 0, 255, 0), self.STORE,
                              bitmap, bitmap).blocks
        self.assertEqual(places(first), [(9, 20), (11, 20), (11, 22), (9, 20), (11, 22), (9, 22),
                                         (16, 21), (17, 21), (17, 22), (16, 21), (17, 22),
                                         (16, 22)])
        self.assertEqual(places(second)[0], (18, 20))
        self.assertEqual({*colors(first), *colors(second)}, {RED})

    def test_a_bitmap_of_a_list_is_drawn_where_the_list_is(self):
        bitmap = ("glBitmap", 1, 1, 0.0, 0.0, 0.0, 0.0, blob("B", 128))
        listed = [("glNewList", 1, "GL_COMPILE"), bitmap, ("glEndList",)]
        block, = scene(self.STORE, *listed, ("glColor3ub", 0, 255, 0), AT,
                       ("glCallList", 1)).blocks
        self.assertEqual((places(block)[0], colors(block)[0]), ((10, 20), GREEN))

    def test_a_raster_position_outside_draws_nothing_until_the_next_one(self):
        bitmap = ("glBitmap", 1, 1, 0.0, 0.0, 0.0, 0.0, blob("B", 128))
        outside = ("glRasterPos2f", 70.0, 20.0)
        self.assertEqual(scene(self.STORE, outside, bitmap).blocks, [])
        block, = scene(self.STORE, outside, ("glWindowPos2i", 3, 4), bitmap).blocks
        self.assertEqual(places(block)[0], (3, 4))

    def test_pixels_are_a_texture_as_large_as_the_zoom_has_them(self):
        texels = blob("8B", 255, 0, 0, 255, 0, 255, 0, 128)
        draw = ("glDrawPixels", 2, 1, "GL_RGBA", "GL_UNSIGNED_BYTE", texels)
        block, = scene(AT, ("glPixelZoom", 2.0, 3.0), draw).blocks
        self.assertEqual(places(block), [(10, 20), (14, 20), (14, 23), (10, 23)])
        self.assertEqual(block.texels, (2, 1, texels.encode("latin1")))

    def test_pixels_of_another_form_are_told(self):
        draw = ("glDrawPixels", 1, 1, "GL_DEPTH_COMPONENT", "GL_FLOAT", blob("f", 0.5))
        made = converted(pickled(WINDOW, CLEAR, PLANE, AT, draw, SWAP))
        self.assertEqual(made.scene.blocks, [])
        self.assertIn("from_apitrace: left out glDrawPixels(GL_DEPTH_COMPONENT, GL_FLOAT) 1",
                      made.lines)
