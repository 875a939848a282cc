"""What is drawn where, and in which colours."""
import math
import unittest

from .hand_traces import (BLUE, CLEAR, CORNERS, GREEN, PLANE, RED, SIX, SWAP, WINDOW, colors,
                          converted, image, pickled, places, primitive, scene, vertices)

COLUMNS = bytes([0, 0, 0, 255, 255, 255, 255, 255] * 128)      # black and white, 16 by 16 texels


def as_bytes(color):
    return tuple(255 * x for x in color)


class Places(unittest.TestCase):
    def test_a_triangle_of_the_plane_lies_exactly_there(self):
        block, = scene(*primitive("GL_TRIANGLES", (8, 8), (24.5, 8), (8, 24.0625))).blocks
        self.assertEqual(places(block), [(8, 8), (24.5, 8), (8, 24.0625)])
        self.assertEqual(block.mode, "TRIANGLES")

    def test_places_are_rounded_to_the_nearest_sixteenth_and_not_down(self):
        block, = scene(*primitive("GL_TRIANGLES", (8.05, 8.02), (24, 8), (8, 24))).blocks
        self.assertEqual((block.vertices[0].x, block.vertices[0].y), (129, 128))

    def test_the_first_viewport_is_the_window(self):
        made = scene(("glViewport", 0, 0, 32, 32), *primitive("GL_TRIANGLES", *CORNERS[:3]))
        self.assertEqual(made.size, (64, 64))
        self.assertEqual(places(made.blocks[0])[2], (32, 32))

    def test_the_window_may_be_said(self):
        self.assertEqual(scene(words=["--size", "80x70"]).size, (80, 70))

    def test_depth_goes_from_near_to_far(self):
        calls = [("glBegin", "GL_TRIANGLES"), ("glVertex3f", 0.0, 0.0, 1.0),
                 ("glVertex3f", 9.0, 0.0, 0.0), ("glVertex3f", 0.0, 9.0, -1.0), ("glEnd",)]
        block, = scene(*calls).blocks
        self.assertEqual([vertex.z for vertex in block.vertices], [-1.0, 0.0, 1.0])

    def test_matrices_are_multiplied_and_pushed(self):
        calls = [("glMatrixMode", "GL_MODELVIEW"), ("glPushMatrix",),
                 ("glTranslatef", 32.0, 0.0, 0.0), ("glRotatef", 90.0, 0.0, 0.0, 1.0),
                 ("glScalef", 2.0, 2.0, 1.0), *primitive("GL_TRIANGLES", (0, 0), (4, 0), (0, 4)),
                 ("glPopMatrix",), *primitive("GL_TRIANGLES", (0, 0), (4, 0), (0, 4))]
        turned, plain = scene(*calls).blocks
        self.assertEqual(places(turned), [(32, 0), (32, 8), (24, 0)])
        self.assertEqual(places(plain), [(0, 0), (4, 0), (0, 4)])


class Primitives(unittest.TestCase):
    def test_quads_are_cut_from_their_second_corner_to_their_last_and_one_alone_is_a_polygon(self):
        two = scene(*primitive("GL_QUADS", *CORNERS, *CORNERS)).blocks
        self.assertEqual([block.mode for block in two], ["FAN"] * 2)
        self.assertEqual(places(two[0]), [(64, 0), (64, 64), (0, 64), (0, 0)])
        alone, = scene(*primitive("GL_QUADS", *CORNERS)).blocks
        self.assertEqual(places(alone), [*map(tuple, CORNERS)])

    def test_a_corner_in_the_middle_of_a_row_is_a_sixteenth_lower(self):
        block, = scene(*primitive("GL_TRIANGLES", (8, 8.5), (24.5, 8.5), (8, 24.46875))).blocks
        self.assertEqual([vertex.y for vertex in block.vertices], [135, 135, 392 - 0])
        line, = scene(*primitive("GL_LINES", (8, 9), (24, 9))).blocks
        self.assertEqual({vertex.y for vertex in line.vertices}, {135, 151})

    def test_a_quad_strip_is_cut_from_its_first_vertex_to_its_fourth(self):
        block, = scene(("glEnable", "GL_CULL_FACE"),
                       *primitive("GL_QUAD_STRIP", (0, 64), (0, 0), (9, 64), (9, 0))).blocks
        self.assertEqual(block.mode, "STRIP")
        self.assertEqual(places(block), [(0, 0), (0, 64), (9, 0), (9, 64)])
        self.assertEqual(block.state["FrontFace"], (1,))

    def test_flat_triangles_have_the_colour_of_their_last_vertex(self):
        calls = primitive("GL_TRIANGLES", *CORNERS[:3], colors=SIX[:3])
        block, = scene(("glShadeModel", "GL_FLAT"), *calls).blocks
        self.assertEqual(colors(block), [BLUE] * 3)

    def test_a_flat_strip_has_the_colour_of_the_last_vertex_of_each_triangle(self):
        strip = primitive("GL_TRIANGLE_STRIP", (0, 0), (0, 9), (9, 0), (9, 9), colors=SIX[:4])
        block, = scene(("glShadeModel", "GL_FLAT"), *strip).blocks
        self.assertEqual(block.mode, "TRIANGLES")
        self.assertEqual(colors(block), [BLUE] * 3 + [(255, 255, 0)] * 3)
        self.assertEqual(places(block)[3:], [(9, 0), (0, 9), (9, 9)])

    def test_a_flat_fan_has_the_colour_of_the_last_vertex_of_each_triangle(self):
        fan = primitive("GL_TRIANGLE_FAN", *CORNERS, colors=SIX[:4])
        block, = scene(("glShadeModel", "GL_FLAT"), *fan).blocks
        self.assertEqual(colors(block), [BLUE] * 3 + [(255, 255, 0)] * 3)

    def test_a_flat_quad_has_the_colour_of_its_last_vertex_and_a_polygon_of_its_first(self):
        for mode, color in (("GL_QUADS", (255, 255, 0)), ("GL_POLYGON", RED)):
            block, = scene(("glShadeModel", "GL_FLAT"),
                           *primitive(mode, *CORNERS, colors=SIX[:4])).blocks
            self.assertEqual(colors(block), [color] * 4, mode)

    def test_a_flat_quad_strip_has_the_colour_of_the_fourth_vertex_of_each_quad(self):
        strip = primitive("GL_QUAD_STRIP", (0, 9), (0, 0), (9, 9), (9, 0), (19, 9), (19, 0),
                          colors=SIX)
        first, second = scene(("glShadeModel", "GL_FLAT"), *strip).blocks
        self.assertEqual((colors(first), colors(second)), ([as_bytes(SIX[3])] * 4,
                                                           [as_bytes(SIX[5])] * 4))

    def test_a_line_is_a_quad_widened_across_its_lesser_axis(self):
        lines = primitive("GL_LINES", (8, 8), (24, 12), (8, 8), (12, 24))
        first, second = scene(("glLineWidth", 3.0), *lines).blocks
        # An end lies anywhere between the middles of two pixels: where the line goes through a
        # sixteenth, a quarter of a pixel before the ends here.
        self.assertEqual(places(first), [(7.75, 6.4375), (23.75, 10.4375), (23.75, 13.4375),
                                         (7.75, 9.4375)])
        self.assertEqual(places(second), [(y, x) for x, y in places(first)])

    def test_a_line_has_the_pixels_whose_diamonds_it_leaves(self):
        # By the first column that it has and the one behind its last: it has pixel 8 where it
        # begins in the diamond there, left or right of the middle, and not where it ends in one.
        for first, last, columns in (((8.25, 8.5), (16.25, 8.5), (8, 16)),
                                     ((8.75, 8.5), (16.75, 8.5), (8, 16)),
                                     ((8.25, 8.1), (16.25, 8.1), (8, 16)),
                                     ((8.75, 8.1), (16.75, 8.1), (9, 17)),
                                     ((16.75, 8.5), (8.75, 8.5), (9, 17)),
                                     ((8.75, 8.1), (9.25, 8.1), None)):
            blocks = scene(*primitive("GL_LINES", first, last)).blocks
            ends = [{math.ceil(x - 0.5) for x, _ in places(block)} for block in blocks]
            self.assertEqual(ends, [set(columns)] if columns else [], (first, last))

    def test_a_loop_ends_where_it_began_and_a_flat_line_has_the_colour_of_its_end(self):
        loop = primitive("GL_LINE_LOOP", (8, 8), (24, 8), (24, 24), colors=SIX[:3])
        blocks = scene(("glShadeModel", "GL_FLAT"), *loop).blocks
        self.assertEqual([colors(block)[0] for block in blocks], [GREEN, BLUE, RED])

    def test_a_point_is_a_square(self):
        block, = scene(("glPointSize", 4.0), *primitive("GL_POINTS", (10, 20))).blocks
        self.assertEqual(places(block), [(8, 18), (12, 18), (12, 22), (8, 22)])

    def test_a_point_that_is_not_smooth_covers_whole_pixels(self):
        # An odd number of them around the one that it is in, an even number around the corner of
        # four that is nearest; the size is rounded.
        for size, place, low, side in ((1.0, (10.9, 20.1), (10, 20), 1),
                                       (3.0, (10.9, 20.1), (9, 19), 3),
                                       (2.0, (10.4, 20.6), (9, 20), 2),
                                       (2.5, (10.4, 20.6), (9, 20), 2),
                                       (1.0, (10.999, 20.0), (11, 20), 1)):
            block, = scene(("glPointSize", size), *primitive("GL_POINTS", place)).blocks
            (x, y), high = low, tuple(z + side for z in low)
            self.assertEqual(places(block), [low, (high[0], y), high, (x, high[1])], (size, place))

    def test_a_polygon_in_lines_draws_each_edge_once(self):
        calls = primitive("GL_TRIANGLES", (8, 8), (24, 8), (8, 24), (24, 8), (24, 24), (8, 24))
        blocks = scene(("glPolygonMode", "GL_FRONT_AND_BACK", "GL_LINE"), *calls).blocks
        self.assertEqual(len(blocks), 6)
        strip = primitive("GL_TRIANGLE_STRIP", (8, 8), (24, 8), (8, 24), (24, 24))
        blocks = scene(("glPolygonMode", "GL_FRONT_AND_BACK", "GL_LINE"), *strip).blocks
        self.assertEqual(len(blocks), 5)

    def test_outlines_have_the_colours_of_the_side_that_is_seen(self):
        calls = [*Light.LIGHT, ("glLightModeli", "GL_LIGHT_MODEL_TWO_SIDE", "GL_TRUE"),
                 ("glMaterialfv", "GL_BACK", "GL_DIFFUSE", [0.0, 1.0, 0.0, 1.0]),
                 ("glPolygonMode", "GL_FRONT_AND_BACK", "GL_LINE"),
                 ("glNormal3f", 0.0, 0.0, -1.0)]
        blocks = scene(*calls, *primitive("GL_TRIANGLES", (8, 8), (8, 24), (24, 8))).blocks
        self.assertEqual([colors(block)[0] for block in blocks], [(10, 255, 10)] * 3)

    def test_each_side_has_its_own_mode(self):
        front, back = ((8, 8), (24, 8), (8, 24)), ((32, 32), (32, 48), (48, 32))
        calls = [("glPolygonMode", "GL_FRONT", "GL_FILL"), ("glPolygonMode", "GL_BACK", "GL_LINE")]
        blocks = scene(*calls, *primitive("GL_TRIANGLES", *front, *back)).blocks
        self.assertEqual(sorted((block.mode, len(block.vertices)) for block in blocks),
                         [("FAN", 4)] * 3 + [("TRIANGLES", 3)])

    def test_polygon_offset_moves_depth_by_units(self):
        calls = [("glEnable", "GL_POLYGON_OFFSET_FILL"), ("glPolygonOffset", 0.0, 4096.0)]
        block, = scene(*calls, *primitive("GL_TRIANGLES", *CORNERS[:3])).blocks
        self.assertEqual([vertex.z for vertex in block.vertices], [2 * 4096 / 16777216] * 3)


class Clipping(unittest.TestCase):
    # The eye stands at 0 and looks along -z; near at 1.
    FRUSTUM = [("glMatrixMode", "GL_PROJECTION"), ("glLoadIdentity",),
               ("glFrustum", -1.0, 1.0, -1.0, 1.0, 1.0, 101.0),
               ("glMatrixMode", "GL_MODELVIEW")]

    def ground(self, *calls):
        corners = ((-1.0, -0.5, 9.0), (1.0, -0.5, 9.0), (1.0, -0.5, -4.0), (-1.0, -0.5, -4.0))
        return scene(*self.FRUSTUM, *calls, ("glBegin", "GL_POLYGON"),
                     *[("glVertex3f", *corner) for corner in corners], ("glEnd",))

    def test_what_runs_past_the_eye_is_cut_at_the_near_plane(self):
        block, = self.ground().blocks
        # At z = -1 the ground spans the window; at z = -4 a quarter of it, 1/8 below the middle.
        self.assertEqual(set(places(block)), {(0, 16), (64, 16), (40, 28), (24, 28)})
        self.assertTrue(all(-1 <= vertex.z <= 1 for vertex in block.vertices))

    def test_a_clip_plane_keeps_the_side_where_its_equation_is_above_0(self):
        calls = [("glClipPlane", "GL_CLIP_PLANE0", [1.0, 0.0, 0.0, -32.0]),
                 ("glEnable", "GL_CLIP_PLANE0")]
        block, = scene(*calls, *primitive("GL_POLYGON", *CORNERS)).blocks
        self.assertEqual(set(places(block)), {(32, 0), (64, 0), (64, 64), (32, 64)})

    def test_a_clip_plane_has_a_newer_name_too(self):
        calls = [("glClipPlane", "GL_CLIP_DISTANCE1", [1.0, 0.0, 0.0, -32.0]),
                 ("glEnable", "GL_CLIP_DISTANCE1")]
        block, = scene(*calls, *primitive("GL_POLYGON", *CORNERS)).blocks
        self.assertEqual(set(places(block)), {(32, 0), (64, 0), (64, 64), (32, 64)})

    def test_what_lies_outside_the_window_gives_no_block(self):
        self.assertEqual(scene(*primitive("GL_TRIANGLES", (70, 0), (99, 0), (70, 9))).blocks, [])

    def road(self, texels, *calls):
        """A road in two halves, whose texture has 16 by 16 texels and is seen in perspective."""
        road = [("glBegin", "GL_QUADS")]
        for left, right in ((-1.0, 0.0), (0.0, 1.0)):
            for x, z, s, t in ((left, -1.0, 0, 0), (right, -1.0, 1, 0), (right, -60.0, 1, 9),
                               (left, -60.0, 0, 9)):
                road += [("glTexCoord2f", float(s), float(t)), ("glVertex3f", x, -0.5, z)]
        made = converted(pickled(WINDOW, CLEAR, *self.FRUSTUM, *image(16, 16, texels), *calls,
                                 *road, ("glEnd",), SWAP))
        return made.scene.blocks, [line for line in made.lines if "perspective" in line]

    def test_perspective_cuts_a_textured_polygon_finer_and_neighbours_share_edges(self):
        # Two textures that aren't laid on pixel by pixel: one whose neighbouring texels hardly
        # differ, of which nothing is told, and one that a linear filter has in steps.
        greys = bytes([100, 100, 100, 255, 124, 124, 124, 255] * 128)
        steps = ("glTexParameteri", "GL_TEXTURE_2D", "GL_TEXTURE_MIN_FILTER", "GL_LINEAR")
        for texels, calls, told, size in ((greys, [], 0, 16), (COLUMNS, [steps], 1, 144)):
            blocks, lines = self.road(texels, *calls)
            self.assertEqual(len(lines), told)
            self.assertEqual({block.texels[:2] for block in blocks}, {(size, size)})
            corners = [vertex for block in blocks for vertex in block.vertices]
            middle = [vertex.y for vertex in corners if vertex.x == 512]
            self.assertGreater(len(set(middle)), 8)
            # Both halves of the road cut the edge between them at the same places, and each
            # triangle is one of single triangles, so each place on it stands in both.
            for vertex in corners:
                if vertex.x == 512:
                    sides = {(a.x > 512) - (a.x < 512) for block in blocks
                             for a in block.vertices if a.y == vertex.y}
                    self.assertIn(0, sides)
            self.assertEqual(uneven_edges(blocks, 512), set())

    def test_neighbours_that_are_laid_on_pixel_by_pixel_leave_no_gap(self):
        blocks, lines = self.road(COLUMNS)
        self.assertEqual((len(blocks), lines), (2, []))
        self.assertEqual(uneven_edges(blocks, 512), set())
        # A half spans 32 pixels, from 16 up to 31.7, and its image a pixel more around it.
        for block, left in zip(blocks, (0, 31)):
            width, height, texels = block.texels
            self.assertEqual((width, height), (33, 18))
            for vertex, (x, y) in zip(block.vertices, places(block)):
                self.assertAlmostEqual(left + width * vertex.coordinate[0], x, delta=1 / 16)
                self.assertAlmostEqual(15 + height * vertex.coordinate[1], y, delta=1 / 16)
            self.assertEqual(len(set(places(block)) & {(32, 16), (32, 31.75)}), 2)
        # A pixel shows the texel that the ray through its middle meets. The ground lies half below
        # the eye, so there it is 0.5 / down away; white are the texels of odd columns.
        shown = 0
        for row in range(16, 32):
            away = 0.5 / (1 - (row + 0.5) / 32)
            for column in range(64):
                across = ((column + 0.5) / 32 - 1) * away
                place = 16 * (across % 1)
                if away > 60 or abs(across) > 1 or abs(place - round(place)) < 0.01:
                    continue        # beside the road, or where two texels meet
                block, left = (blocks[1], 31) if column > 31 else (blocks[0], 0)
                at = 4 * (33 * (row - 15) + column - left)
                white = 255 * (int(place) % 2)
                self.assertEqual(tuple(block.texels[2][at:at + 4]), (white, white, white, 255),
                                 (column, row))
                shown += 1
        self.assertGreater(shown, 400)

    def test_a_corner_that_is_no_number_leaves_its_polygon_out(self):
        calls = [("glBegin", "GL_TRIANGLES"), *vertices((0, 0), (9, 0)),
                 ("glVertex2f", float("nan"), 1.0), *vertices((1, 1), (9, 1), (1, 9)), ("glEnd",)]
        made = converted(pickled(WINDOW, CLEAR, PLANE, *calls, SWAP))
        self.assertEqual([len(block.vertices) for block in made.scene.blocks], [3])
        self.assertIn("from_apitrace: left out a polygon with a corner that isn't finite 1",
                      made.lines)


def uneven_edges(blocks, x):
    """Edges on a vertical line of the window that triangles of one side alone have."""
    sides = {}
    for block in blocks:
        corners = block.vertices
        triangles = [corners[i:i + 3] for i in range(0, len(corners) - 2, 3)] \
            if block.mode == "TRIANGLES" else [(corners[0], *pair) for pair
                                               in zip(corners[1:], corners[2:])]
        for triangle in triangles:
            ends = sorted(v.y for v in triangle if v.x == x)
            if len(ends) == 2:
                third, = [v for v in triangle if v.x != x]
                sides.setdefault(tuple(ends), set()).add(third.x > x)
    return {edge for edge, found in sides.items() if len(found) == 1}


class Light(unittest.TestCase):
    LIGHT = [("glEnable", "GL_LIGHTING"), ("glEnable", "GL_LIGHT0"),
             ("glLightfv", "GL_LIGHT0", "GL_POSITION", [0.0, 0.0, 1.0, 0.0]),
             ("glLightModelfv", "GL_LIGHT_MODEL_AMBIENT", [0.2, 0.2, 0.2, 1.0])]

    def lit(self, *calls, normal=(0.0, 0.0, 1.0)):
        made = scene(*self.LIGHT, *calls, ("glNormal3f", *normal),
                     *primitive("GL_TRIANGLES", (0, 0), (9, 0), (0, 9)))
        return made.blocks[-1].vertices[0].color

    def test_light_from_the_viewer_on_a_plain_material(self):
        # 0.2 of the model's 0.2, and 0.8 of the light's 1: 0.84 of 255.
        self.assertEqual(self.lit(), (214, 214, 214, 255))

    def test_a_normal_that_is_turned_away_has_the_ambient_part_alone(self):
        self.assertEqual(self.lit(normal=(0.0, 0.0, -1.0)), (10, 10, 10, 255))

    def test_a_normal_is_as_long_as_it_is_unless_it_is_normalised_or_scaled_back(self):
        # Half as long: 0.04 + 0.8 / 2 is 0.44; of length one it is 0.84.
        half = {"normal": (0.0, 0.0, 0.5)}
        self.assertEqual(self.lit(**half), (112, 112, 112, 255))
        self.assertEqual(self.lit(("glEnable", "GL_NORMALIZE"), **half), (214, 214, 214, 255))
        self.assertEqual(self.lit(("glEnable", "GL_RESCALE_NORMAL"), **half), (112, 112, 112, 255))
        # A matrix that doubles lengths halves normals, which the scale gives back.
        doubled = ("glScalef", 2.0, 2.0, 2.0)
        self.assertEqual(self.lit(doubled), (112, 112, 112, 255))
        self.assertEqual(self.lit(doubled, ("glEnable", "GL_RESCALE_NORMAL")),
                         (214, 214, 214, 255))

    def test_a_slanting_normal_has_the_cosine_of_its_angle(self):
        # 0.04 + 0.8 * 0.6 is 0.52.
        self.assertEqual(self.lit(normal=(0.8, 0.0, 0.6)), (133, 133, 133, 255))

    def test_a_shining_material_adds_a_power_of_the_half_angle(self):
        # The half vector is (0, 0, 1): 0.04 + 0.48 + 0.5 * 0.6 ** 2 is 0.7.
        calls = [("glMaterialfv", "GL_FRONT", "GL_SPECULAR", [0.5, 0.5, 0.5, 1.0]),
                 ("glMaterialf", "GL_FRONT", "GL_SHININESS", 2.0)]
        self.assertEqual(self.lit(*calls, normal=(0.8, 0.0, 0.6)), (179, 179, 179, 255))

    def test_a_light_at_a_place_fades(self):
        # 3 above the first vertex and fading by 1 + 1 * 3: 0.04 + 0.8 / 4 is 0.24.
        calls = [("glLightfv", "GL_LIGHT0", "GL_POSITION", [0.0, 0.0, 3.0, 1.0]),
                 ("glLightf", "GL_LIGHT0", "GL_LINEAR_ATTENUATION", 1.0)]
        self.assertEqual(self.lit(*calls), (61, 61, 61, 255))

    def test_colour_material_tracks_while_it_is_on_and_keeps_the_last_colour(self):
        track = [("glColorMaterial", "GL_FRONT_AND_BACK", "GL_DIFFUSE"),
                 ("glEnable", "GL_COLOR_MATERIAL"), ("glColor3f", 1.0, 0.0, 0.0)]
        red = (255, 10, 10, 255)
        self.assertEqual(self.lit(*track), red)
        off = [*track, ("glDisable", "GL_COLOR_MATERIAL"), ("glColor3f", 0.0, 1.0, 0.0)]
        self.assertEqual(self.lit(*off), red)
        self.assertEqual(self.lit(*off, ("glEnable", "GL_COLOR_MATERIAL")), (10, 255, 10, 255))

    def test_a_colour_without_lighting_is_that_of_the_vertex(self):
        self.assertEqual(self.lit(("glDisable", "GL_LIGHTING"), ("glColor4ub", 1, 2, 3, 4)),
                         (1, 2, 3, 4))

    def test_a_material_may_change_within_a_primitive(self):
        calls = [("glBegin", "GL_TRIANGLES")]
        for i, place in enumerate(((0, 0), (9, 0), (0, 9))):
            shade = [float(i == k) for k in range(3)] + [1.0]
            calls += [("glMaterialfv", "GL_FRONT", "GL_DIFFUSE", shade), *vertices(place)]
        block, = scene(*self.LIGHT, *calls, ("glEnd",)).blocks
        self.assertEqual(colors(block), [(255, 10, 10), (10, 255, 10), (10, 10, 255)])

    def test_a_back_has_its_own_material_where_both_sides_are_lit(self):
        calls = [("glLightModeli", "GL_LIGHT_MODEL_TWO_SIDE", "GL_TRUE"),
                 ("glMaterialfv", "GL_BACK", "GL_DIFFUSE", [0.0, 1.0, 0.0, 1.0]),
                 ("glNormal3f", 0.0, 0.0, -1.0),
                 *primitive("GL_TRIANGLES", (0, 0), (0, 9), (9, 0))]
        block, = scene(*self.LIGHT, *calls).blocks
        self.assertEqual(colors(block), [(10, 255, 10)] * 3)

    def test_fog_lies_over_a_texture(self):
        # The eye stands at 0, and fog takes half at a distance of 2.
        calls = [*Clipping.FRUSTUM, *image(1, 1, bytes((255, 255, 255, 255))),
                 ("glEnable", "GL_DEPTH_TEST"), ("glEnable", "GL_FOG"),
                 ("glFogi", "GL_FOG_MODE", "GL_LINEAR"), ("glFogf", "GL_FOG_START", 1.0),
                 ("glFogf", "GL_FOG_END", 3.0), ("glFogfv", "GL_FOG_COLOR", [0.0, 0.0, 1.0, 1.0]),
                 ("glColor3f", 1.0, 0.0, 0.0)]
        wall = [("glBegin", "GL_TRIANGLES")] + [("glVertex3f", x, y, -2.0) for x, y in (
            (-1.0, -1.0), (1.0, -1.0), (-1.0, 1.0))] + [("glEnd",)]
        plain, veil = scene(*calls, *wall).blocks
        self.assertEqual((colors(plain), veil.texels), ([RED] * 3, None))
        self.assertEqual([vertex.color for vertex in veil.vertices], [(0, 0, 255, 128)] * 3)
        self.assertEqual([vertex[:3] for vertex in veil.vertices],
                         [vertex[:3] for vertex in plain.vertices])
        # Drawn where depth is equal, and mixed by its alpha.
        self.assertEqual((veil.state["DepthFunc"], veil.state["DepthMask"],
                          veil.state["BlendFunc"]), ((2,), (0,), (6, 7)))
        # What is blended with what is behind it has fog under its texture.
        block, = scene(*calls, ("glEnable", "GL_BLEND"), *wall).blocks
        self.assertEqual(colors(block), [(128, 0, 128)] * 3)

    def test_fog_is_mixed_by_distance_and_a_line_is_cut_where_it_bends(self):
        fog = [("glEnable", "GL_FOG"), ("glFogi", "GL_FOG_MODE", "GL_LINEAR"),
               ("glFogf", "GL_FOG_START", 0.0), ("glFogf", "GL_FOG_END", 1.0),
               ("glFogfv", "GL_FOG_COLOR", [0.0, 0.0, 1.0, 1.0]), ("glColor3f", 1.0, 0.0, 0.0)]
        calls = [("glBegin", "GL_LINES"), ("glVertex3f", 0.0, 8.0, -1.0),
                 ("glVertex3f", 64.0, 8.0, 1.0), ("glEnd",)]
        first, second = scene(*fog, *calls).blocks
        # Fog bends half way, at pixel 32. A piece may end up to a pixel before that, which is 255 / 32
        # of a colour.
        found = [colors(first)[0], colors(first)[1], colors(second)[0], colors(second)[1]]
        for (red, _, blue), due in zip(found, (0, 255, 255, 0)):
            self.assertEqual(red + blue, 255)
            self.assertLess(abs(red - due), 255 / 32)
