"""State, display lists, arrays and textures, as a trace has them."""
import re
import struct
import unittest

from .hand_traces import (BLUE, CLEAR, GREEN, PLANE, RED, SIX, SWAP, WHITE, WINDOW, blob, colors,
                          converted, image, pickled, places, primitive, scene, textured,
                          vertices)



# The forms of glInterleavedArrays, with the bytes of a vertex, as OpenGL's table has them.
INTERLEAVED = {"GL_V2F": 8, "GL_V3F": 12, "GL_C4UB_V2F": 12, "GL_C4UB_V3F": 16, "GL_C3F_V3F": 24,
               "GL_N3F_V3F": 24, "GL_C4F_N3F_V3F": 40, "GL_T2F_V3F": 20, "GL_T4F_V4F": 32,
               "GL_T2F_C4UB_V3F": 24, "GL_T2F_C3F_V3F": 32, "GL_T2F_N3F_V3F": 32,
               "GL_T2F_C4F_N3F_V3F": 48, "GL_T4F_C4F_N3F_V4F": 60}


class Values(unittest.TestCase):
    TRIANGLE = primitive("GL_TRIANGLES", (0, 0), (9, 0), (0, 9))

    def test_0_and_1_have_whatever_name_comes_first(self):
        calls = [("glEnable", "GL_BLEND"), ("glDepthMask", "GL_FALSE"),
                 ("glEnable", "GL_DEPTH_TEST")]
        for names in (("GL_NONE", "GL_LINES"), ("GL_FALSE", "GL_TRUE"), ("GL_POINTS", "GL_ONE")):
            block, = scene(*calls, ("glBlendFunc", *names), *self.TRIANGLE).blocks
            self.assertEqual(block.state["BlendFunc"], (0, 1), names)
            self.assertEqual(block.state["DepthMask"], (0,))

    def test_factors_of_alpha_are_those_of_the_colours(self):
        for alphas, told in ((("GL_ONE", "GL_ONE"), 1), (("GL_SRC_ALPHA", "GL_ONE"), 0)):
            calls = [("glEnable", "GL_BLEND"),
                     ("glBlendFuncSeparateEXT", "GL_SRC_ALPHA", "GL_ONE", *alphas)]
            made = converted(pickled(WINDOW, CLEAR, PLANE, *calls, *self.TRIANGLE, SWAP))
            self.assertEqual(made.scene.blocks[0].state["BlendFunc"], (6, 1))
            # Half of 9 by 9 pixels.
            self.assertEqual([line for line in made.lines if "glBlendFuncSeparate" in line],
                             ["from_apitrace: approximated glBlendFuncSeparate, whose factors of "
                              "alpha are those of the colours 1: 3 vertices, 40 pixels"][:told])

    def test_attributes_are_pushed_and_popped_by_groups(self):
        calls = [("glColor3ub", 255, 0, 0), ("glEnable", "GL_BLEND"),
                 ("glPushAttrib", ["GL_CURRENT_BIT"]), ("glColor3ub", 0, 255, 0),
                 ("glDisable", "GL_BLEND"), ("glPopAttrib",)]
        block, = scene(*calls, *self.TRIANGLE).blocks
        self.assertEqual((colors(block)[0], block.state["on"]), (RED, frozenset()))
        block, = scene(*[("glPushAttrib", "GL_ALL_ATTRIB_BITS") if call[0] == "glPushAttrib"
                         else call for call in calls], *self.TRIANGLE).blocks
        self.assertEqual((colors(block)[0], block.state["on"]), (RED, frozenset([3])))

    def test_tests_and_masks_are_those_of_the_state(self):
        calls = [("glEnable", "GL_ALPHA_TEST"), ("glAlphaFunc", "GL_GREATER", 0.5),
                 ("glEnable", "GL_DEPTH_TEST"), ("glDepthFunc", "GL_LEQUAL"),
                 ("glColorMask", "GL_TRUE", "GL_FALSE", 1, 0), ("glDepthRange", 0.25, 0.5),
                 ("glEnable", "GL_SCISSOR_TEST"), ("glScissor", 1, 2, 3, 4)]
        state = scene(*calls, *self.TRIANGLE).blocks[0].state
        self.assertEqual([state[name] for name in ("AlphaFunc", "DepthFunc", "ColorMask",
                                                   "DepthRange", "Scissor")],
                         [(4, 128), (3,), (1, 0, 1, 0), (16384, 32768), (1, 2, 3, 4)])

    def test_contexts_keep_their_own_values(self):
        calls = [("glXMakeCurrent", 1, 2, 7), ("glColor3ub", 255, 0, 0), WINDOW,
                 ("glXMakeCurrent", 1, 2, 8), WINDOW, PLANE, *self.TRIANGLE]
        block = scene(*calls).blocks[-1]
        self.assertEqual(colors(block)[0], WHITE)


class Lists(unittest.TestCase):
    ARRAY = [("glVertexPointer", 2, "GL_FLOAT", 0, blob("6f", 8, 8, 24, 8, 8, 24)),
             ("glEnableClientState", "GL_VERTEX_ARRAY")]

    def test_arrays_are_recorded_as_the_vertices_that_they_have(self):
        calls = [("glNewList", 1, "GL_COMPILE"), *self.ARRAY,
                 ("glDrawArrays", "GL_TRIANGLES", 0, 3), ("glEndList",),
                 ("glVertexPointer", 2, "GL_FLOAT", 0, blob("6f", *[0] * 6)),
                 ("glColor3ub", 255, 0, 0), ("glCallList", 1)]
        block, = scene(*calls).blocks
        self.assertEqual(places(block), [(8, 8), (24, 8), (8, 24)])
        self.assertEqual(colors(block), [RED] * 3)

    def test_arrays_leave_what_is_current_in_a_list_too(self):
        reds = blob("9B", *[255, 0, 0] * 3)
        colored = [*self.ARRAY, ("glColorPointer", 3, "GL_UNSIGNED_BYTE", 0, reds),
                   ("glEnableClientState", "GL_COLOR_ARRAY"), ("glColor3ub", 0, 255, 0)]
        draw = ("glDrawArrays", "GL_TRIANGLES", 0, 3)
        after = primitive("GL_TRIANGLES", (0, 0), (9, 0), (0, 9))
        first, second = scene(*colored, draw, *after).blocks
        self.assertEqual((colors(first)[0], colors(second)[0]), (RED, GREEN))
        listed = [("glNewList", 1, "GL_COMPILE"), draw, ("glEndList",), ("glCallList", 1)]
        self.assertEqual(colors(scene(*colored, *listed, *after).blocks[-1])[0], GREEN)

    def test_what_is_written_to_a_mapped_buffer_is_in_it(self):
        three = blob("6f", 8, 8, 24, 8, 8, 24)
        calls = [("glBindBuffer", "GL_ARRAY_BUFFER", 1),
                 ("glBufferData", "GL_ARRAY_BUFFER", 24, None, "GL_STATIC_DRAW")]
        draw = [("glUnmapBuffer", "GL_ARRAY_BUFFER"), ("glVertexPointer", 2, "GL_FLOAT", 0, 0),
                ("glEnableClientState", "GL_VERTEX_ARRAY"),
                ("glDrawArrays", "GL_TRIANGLES", 0, 3)]
        whole = [("glMapBuffer", "GL_ARRAY_BUFFER", "GL_WRITE_ONLY"), ("memcpy", 4096, three, 24)]
        part = [("memcpy", 4100, three[8:], 16)]
        for write in (whole, [("glMapBufferRange", "GL_ARRAY_BUFFER", 0, 24, 2),
                              ("memcpy", 4104, three[8:], 16), ("memcpy", 4096, three[:8], 8)]):
            block, = scene(*calls, *write, *draw, results=4096).blocks
            self.assertEqual(places(block), [(8, 8), (24, 8), (8, 24)])
        made = converted(pickled(WINDOW, CLEAR, *part, SWAP))
        self.assertIn("from_apitrace: left out a copy to memory that no buffer is mapped to 1",
                      made.lines)

    def test_interleaved_arrays(self):
        # The fourteen forms; what a form hasn't is current: white, and texture coordinates of 0.
        for form, has in INTERLEAVED.items():
            counts = dict(re.findall(r"([TCNV])([234])", form))
            data = b""
            for x, y in ((8, 8), (24, 8), (8, 24)):
                for letter, count in re.findall(r"([TCNV])([234])", form):
                    if letter == "C" and "C4UB" in form:
                        data += bytes((255, 0, 0, 255))
                        continue
                    values = {"T": (0.5, 0.25, 0.0, 1.0), "C": (1.0, 0.0, 0.0, 1.0),
                              "N": (0.0, 0.0, 1.0), "V": (x, y, 0.0, 1.0)}[letter]
                    data += struct.pack(f"<{count}f", *values[:int(count)])
            self.assertEqual(len(data), 3 * has, form)
            calls = [*image(1, 1, b"\xff" * 4),
                     ("glInterleavedArrays", form, 0, data.decode("latin1")),
                     ("glDrawArrays", "GL_TRIANGLES", 0, 3)]
            block, = scene(*calls).blocks
            self.assertEqual(places(block), [(8, 8), (24, 8), (8, 24)], form)
            self.assertEqual(colors(block)[0], RED if "C" in counts else WHITE, form)
            self.assertEqual(block.vertices[0].coordinate, (0.5, 0.25) if "T" in counts else (0, 0))

    def test_elements_and_buffers(self):
        data = blob("2f3B2f3B2f3B", 8, 8, 255, 0, 0, 24, 8, 0, 255, 0, 8, 24, 0, 0, 255)
        calls = [("glBindBuffer", "GL_ARRAY_BUFFER", 1),
                 ("glBufferData", "GL_ARRAY_BUFFER", 33, data, "GL_STATIC_DRAW"),
                 ("glVertexPointer", 2, "GL_FLOAT", 11, 0),
                 ("glColorPointer", 3, "GL_UNSIGNED_BYTE", 11, 8),
                 ("glEnableClientState", "GL_VERTEX_ARRAY"),
                 ("glEnableClientState", "GL_COLOR_ARRAY"),
                 ("glDrawElements", "GL_TRIANGLES", 3, "GL_UNSIGNED_SHORT", blob("3H", 2, 1, 0))]
        block, = scene(*calls).blocks
        self.assertEqual(places(block), [(8, 24), (24, 8), (8, 8)])
        self.assertEqual(colors(block), [BLUE, GREEN, RED])

    def test_a_list_calls_lists_and_ends_64_deep_where_it_calls_itself(self):
        calls = [("glNewList", 1, "GL_COMPILE"), *primitive("GL_TRIANGLES", (0, 0), (9, 0), (0, 9)),
                 ("glCallList", 1), ("glEndList",), ("glNewList", 2, "GL_COMPILE"),
                 ("glCallList", 1), ("glEndList",), ("glCallList", 2)]
        self.assertEqual(len(scene(*calls).blocks), 63)

    def test_compile_and_execute_does_both(self):
        calls = [("glNewList", 1, "GL_COMPILE_AND_EXECUTE"), ("glColor3ub", 0, 255, 0),
                 *primitive("GL_TRIANGLES", (0, 0), (9, 0), (0, 9)), ("glEndList",),
                 ("glColor3ub", 255, 0, 0), ("glCallList", 1)]
        self.assertEqual([colors(block)[0] for block in scene(*calls).blocks], [GREEN, GREEN])

    def test_call_lists_adds_the_base(self):
        calls = [("glNewList", 12, "GL_COMPILE"),
                 *primitive("GL_TRIANGLES", (0, 0), (9, 0), (0, 9)), ("glEndList",),
                 ("glListBase", 10), ("glCallLists", 2, "GL_UNSIGNED_BYTE", blob("2B", 2, 2))]
        self.assertEqual(len(scene(*calls).blocks), 2)

    def test_vertices_of_a_list_have_what_is_current_where_it_is_called(self):
        calls = [("glNewList", 1, "GL_COMPILE"), ("glBegin", "GL_TRIANGLES"), *vertices((0, 0)),
                 ("glColor3ub", 0, 0, 255), *vertices((9, 0), (0, 9)), ("glEnd",), ("glEndList",),
                 ("glColor3ub", 255, 0, 0), ("glCallList", 1), ("glCallList", 1)]
        self.assertEqual([colors(block) for block in scene(*calls).blocks],
                         [[RED, BLUE, BLUE], [BLUE] * 3])

    def test_frames_before_the_first_one_count_for_their_state_alone(self):
        calls = [WINDOW, PLANE, ("glNewList", 1, "GL_COMPILE"),
                 *primitive("GL_TRIANGLES", (0, 0), (9, 0), (0, 9), colors=SIX[:3]),
                 ("glEndList",), ("glCallList", 1), *self.ARRAY,
                 ("glDrawArrays", "GL_TRIANGLES", 0, 3), SWAP,
                 CLEAR, *primitive("GL_TRIANGLES", (0, 0), (9, 0), (0, 9)), SWAP]
        made = converted(pickled(*calls), "--frames", "1:2").scene
        self.assertEqual([colors(block)[0] for block in made.blocks], [BLUE])
        self.assertEqual(len(made.named("Swap")), 1)


class Textures(unittest.TestCase):
    FACE = textured((0, 0, 0, 0), (64, 0, 1, 0), (64, 64, 1, 1), (0, 64, 0, 1))
    TEXEL = {("GL_RGBA", "GL_RGBA"): (bytes([1, 2, 3, 4]), (1, 2, 3, 4)),
             ("GL_BGRA", "GL_RGBA"): (bytes([1, 2, 3, 4]), (3, 2, 1, 4)),
             ("GL_RGB", "GL_RGB"): (bytes([1, 2, 3]), (1, 2, 3, 255)),
             ("GL_RGBA", "GL_RGB"): (bytes([1, 2, 3, 4]), (1, 2, 3, 255)),
             ("GL_ALPHA", "GL_ALPHA"): (bytes([9]), (255, 255, 255, 9)),
             ("GL_LUMINANCE", "GL_LUMINANCE8"): (bytes([9]), (9, 9, 9, 255)),
             ("GL_LUMINANCE_ALPHA", 2): (bytes([9, 7]), (9, 9, 9, 7)),
             ("GL_LUMINANCE", "GL_INTENSITY"): (bytes([9]), (9, 9, 9, 9))}

    CUT = ["--cut-textures", "--nearest"]   # with which nothing is laid on pixel by pixel

    def test_formats_become_what_modulate_takes(self):
        for (form, internal), (given, texel) in self.TEXEL.items():
            texels = b"".join(given.ljust(4, b"\0") for _ in range(1))
            block, = scene(*image(1, 1, texels, form, internal), *self.FACE).blocks
            self.assertEqual(block.texels, (1, 1, bytes(texel)), (form, internal))

    def test_rows_are_padded_by_the_alignment(self):
        data = bytes([1, 2, 3, 0, 4, 5, 6, 0])
        block, = scene(*image(1, 2, data, "GL_RGB", "GL_RGB"), *self.FACE).blocks
        self.assertEqual(block.texels[2], bytes([1, 2, 3, 255, 4, 5, 6, 255]))
        calls = [("glPixelStorei", "GL_UNPACK_ALIGNMENT", 1),
                 *image(1, 2, bytes([1, 2, 3, 4, 5, 6]), "GL_RGB", "GL_RGB")]
        block, = scene(*calls, *self.FACE).blocks
        self.assertEqual(block.texels[2], bytes([1, 2, 3, 255, 4, 5, 6, 255]))

    def test_replace_without_alpha_is_modulate_with_white_and_the_own_alpha(self):
        calls = [("glColor4ub", 10, 20, 30, 40),
                 ("glTexEnvi", "GL_TEXTURE_ENV", "GL_TEXTURE_ENV_MODE", "GL_REPLACE")]
        block, = scene(*image(1, 1, b"\1\2\3\0", "GL_RGB", "GL_RGB"), *calls, *self.FACE).blocks
        self.assertEqual((block.state.get("TexEnv", (0,)), block.vertices[0].color),
                         ((0,), (255, 255, 255, 40)))
        block, = scene(*image(1, 1, b"\1\2\3\4"), *calls, *self.FACE).blocks
        self.assertEqual(block.state["TexEnv"], (1,))
        decal = [calls[0], ("glTexEnvi", "GL_TEXTURE_ENV", "GL_TEXTURE_ENV_MODE", "GL_DECAL")]
        block, = scene(*image(1, 1, b"\1\2\3\0", "GL_RGB", "GL_RGB"), *decal, *self.FACE).blocks
        self.assertEqual(block.vertices[0].color, (255, 255, 255, 40))

    def test_a_texture_above_256_is_boxed_down(self):
        texels = bytes([0, 0, 0, 255, 200, 100, 50, 255]) * 256
        block, = scene(*image(512, 1, texels), *self.FACE, words=["--nearest"]).blocks
        self.assertEqual(block.texels, (256, 1, bytes([100, 50, 25, 255]) * 256))
        made = converted(pickled(WINDOW, CLEAR, PLANE, *image(512, 1, texels), *self.FACE, SWAP),
                         "--nearest")
        self.assertIn("from_apitrace: approximated a texture above 256 texels a side by a smaller "
                      "image 1: 4 vertices, 4096 pixels", made.lines)

    def test_or_cut_in_parts_and_the_polygon_with_it(self):
        texels = bytes([255, 0, 0, 255]) * 256 + bytes([0, 0, 255, 255]) * 256
        first, second = scene(*image(512, 1, texels), *self.FACE, words=self.CUT).blocks
        self.assertEqual(first.texels, (256, 1, texels[:1024]))
        self.assertEqual(second.texels, (256, 1, texels[1024:]))
        self.assertEqual(set(places(first)), {(0, 0), (32, 0), (32, 64), (0, 64)})
        self.assertEqual(set(places(second)), {(32, 0), (64, 0), (64, 64), (32, 64)})
        for block in (first, second):
            self.assertEqual({vertex.coordinate[0] for vertex in block.vertices}, {0, 1})
            self.assertEqual(block.state["TexWrap"], (1, 1))

    def test_parts_go_on_over_the_seam_of_a_repeated_texture(self):
        texels = bytes([255, 0, 0, 255]) * 256 + bytes([0, 0, 255, 255]) * 256
        face = textured((0, 0, 0.5, 0), (64, 0, 1.5, 0), (64, 64, 1.5, 1), (0, 64, 0.5, 1))
        blocks = scene(*image(512, 1, texels), *face, words=self.CUT).blocks
        self.assertEqual([(block.texels[2][:3], min(places(block))[0]) for block in blocks],
                         [(bytes(BLUE), 0), (bytes(RED), 32)])

    def test_a_face_over_more_than_256_parts_is_boxed_down_after_all(self):
        texels = bytes([0, 0, 0, 255, 200, 100, 50, 255]) * 256
        face = textured((0, 0, 0, 0), (64, 0, 200, 0), (64, 64, 200, 1), (0, 64, 0, 1))
        block, = scene(*image(512, 1, texels), *face, words=self.CUT).blocks
        self.assertEqual((block.texels[0], block.state.get("TexWrap", (0, 0))), (256, (0, 0)))

    def test_as_many_nearest_texels_as_pixels_are_laid_on_pixel_by_pixel(self):
        # A place is a sixteenth of a pixel at best, and so a texel's place in the window.
        row = (bytes([0, 0, 0, 255]) + b"\xff" * 4) * 32
        columns = row * 64
        block, = scene(*image(64, 64, columns), *self.FACE).blocks
        self.assertEqual((block.texels, block.state["TexWrap"]), ((64, 64, columns), (1, 1)))
        made = converted(pickled(WINDOW, CLEAR, PLANE, *image(64, 64, columns), *self.FACE, SWAP),
                         "--nearest")
        self.assertIn("from_apitrace: approximated a texture of about as many texels as pixels by "
                      "places in sixteenths of a pixel 1: 4 vertices, 4096 pixels", made.lines)
        large = textured((0, 0, 0, 0), (64, 0, 0.375, 0), (64, 64, 0.375, 1), (0, 64, 0, 1))
        block, = scene(*image(64, 1, row), *large).blocks
        self.assertEqual(block.texels, (64, 1, row))

    def test_a_small_face_takes_a_smaller_level_where_the_filter_has_mipmaps(self):
        # Of 64 by 64 texels in 16 by 16 pixels a pixel has four a side: image 2, whose columns are
        # black and white by turns, as those of image 0 are by fours.
        columns = (bytes([0, 0, 0, 255]) * 4 + bytes([255] * 16)) * 8 * 64
        s = 1 / 64      # a quarter of a column of image 2
        small = textured((0, 0, s, 0), (16, 0, 1 + s, 0), (16, 16, 1 + s, 1), (0, 16, s, 1))
        blocks = {}
        for name in ("GL_NEAREST_MIPMAP_NEAREST", "GL_LINEAR_MIPMAP_LINEAR"):
            filtered = ("glTexParameteri", "GL_TEXTURE_2D", "GL_TEXTURE_MIN_FILTER", name)
            whole, blocks[name] = scene(*image(64, 64, columns), filtered, *self.FACE,
                                        *small).blocks
            self.assertEqual(whole.texels, (64, 64, columns))
        # A mipmap is laid on pixel by pixel, with a pixel around what the face has. A pixel's
        # middle stands at column x + 3/4, a quarter of a column right of the middle of column x,
        # so under a linear filter it has a quarter of the next one: 64 and 191 of 255. In image 1
        # it would be the middle of a column, and image 3 is of one grey.
        for name, black, white in (("GL_NEAREST_MIPMAP_NEAREST", 0, 255),
                                   ("GL_LINEAR_MIPMAP_LINEAR", 64, 191)):
            width, height, texels = blocks[name].texels
            self.assertEqual((width, height), (17, 17))
            self.assertEqual(blocks[name].vertices[2].coordinate,
                             (round(16 / 17 * 65536) / 65536,) * 2)
            for y in range(16):
                self.assertEqual(texels[68 * y:68 * y + 64:4], bytes([black, white]) * 8, (name, y))

    def test_each_polygon_has_the_image_of_a_mipmap_that_it_shows(self):
        # Two quads of as many texels, the second one half as large: without room for their pixels
        # each has its own image.
        columns = (bytes([0, 0, 0, 255]) * 8 + bytes([255] * 32)) * 4 * 64
        quads = [("glBegin", "GL_QUADS")]
        for left, side in ((0, 32), (32, 16)):
            for s, t in ((0, 0), (1, 0), (1, 1), (0, 1)):
                quads += [("glTexCoord2f", float(s), float(t)),
                          ("glVertex2f", float(left + s * side), float(t * side))]
        filtered = ("glTexParameteri", "GL_TEXTURE_2D", "GL_TEXTURE_MIN_FILTER",
                    "GL_NEAREST_MIPMAP_NEAREST")
        blocks = scene(*image(64, 64, columns), filtered, *quads, ("glEnd",),
                       words=["--nearest"]).blocks
        self.assertEqual([block.texels[:2] for block in blocks], [(32, 32), (16, 16)])

    def test_a_part_of_an_image_may_be_written(self):
        calls = image(2, 1, bytes([1] * 8)) + [
            ("glTexSubImage2D", "GL_TEXTURE_2D", 0, 1, 0, 1, 1, "GL_RGBA", "GL_UNSIGNED_BYTE",
             bytes([5, 6, 7, 8]).decode("latin1"))]
        block, = scene(*calls, *self.FACE).blocks
        self.assertEqual(block.texels, (2, 1, bytes([1, 1, 1, 1, 5, 6, 7, 8])))

    def test_65_textures_use_names_again(self):
        calls = []
        for name in range(1, 66):
            calls += [("glBindTexture", "GL_TEXTURE_2D", name), *image(1, 1, bytes([name] * 4))[2:]]
            calls[-1:] = [("glTexImage2D", *calls[-1][1:])]
        draws = []
        for name in [*range(1, 66), 1]:
            draws += [("glBindTexture", "GL_TEXTURE_2D", name), *self.FACE]
        made = scene(("glEnable", "GL_TEXTURE_2D"), *calls, *draws)
        self.assertEqual([block.texels[2][0] for block in made.blocks], [*range(1, 66), 1])
        self.assertEqual([numbers[0] for numbers in made.named("TexImage")],
                         [*range(1, 65), 1, 2])

    def test_made_coordinates_and_the_texture_matrix(self):
        calls = [("glEnable", "GL_TEXTURE_GEN_S"),
                 ("glTexGeni", "GL_S", "GL_TEXTURE_GEN_MODE", "GL_OBJECT_LINEAR"),
                 ("glTexGenfv", "GL_S", "GL_OBJECT_PLANE", [1 / 64, 0.0, 0.0, 0.0]),
                 ("glMatrixMode", "GL_TEXTURE"), ("glScalef", 2.0, 1.0, 1.0)]
        block, = scene(*image(1, 1, bytes(4)), *calls,
                       *primitive("GL_TRIANGLES", (0, 0), (64, 0), (0, 64))).blocks
        self.assertEqual([vertex.coordinate[0] for vertex in block.vertices], [0, 2, 0])

    def test_a_sphere_map_takes_a_normal_as_long_as_it_is(self):
        # The view is u = (1, 1, 0) / sqrt 2, and r = u - 2 n (n u): (0.3536, 0.7071, 0) by the
        # normal itself, whose s is 0.3536 / 2.5495 + 0.5, and (-0.7071, 0.7071, 0) by a unit one.
        calls = [("glEnable", "GL_TEXTURE_GEN_S"),
                 ("glTexGeni", "GL_S", "GL_TEXTURE_GEN_MODE", "GL_SPHERE_MAP"),
                 ("glNormal3f", 0.5, 0.0, 0.0)]
        face = primitive("GL_TRIANGLES", (32, 32), (64, 32), (32, 64))
        for more, s in (([], 0.6387), ([("glEnable", "GL_NORMALIZE")], 0.25)):
            block, = scene(*image(1, 1, bytes(4)), *calls, *more, *face).blocks
            self.assertAlmostEqual(block.vertices[0].coordinate[0], s, places=3)
