"""Textures under a linear filter, and how much of what is drawn a note is about."""
import unittest

from .hand_traces import (CLEAR, PLANE, SWAP, WINDOW, converted, image, pickled, primitive, scene,
                          textured)

LINEAR = [("glTexParameteri", "GL_TEXTURE_2D", "GL_TEXTURE_MAG_FILTER", "GL_LINEAR"),
          ("glTexParameteri", "GL_TEXTURE_2D", "GL_TEXTURE_WRAP_S", "GL_CLAMP_TO_EDGE"),
          ("glTexParameteri", "GL_TEXTURE_2D", "GL_TEXTURE_WRAP_T", "GL_CLAMP_TO_EDGE")]
FACE = textured((0, 0, 0, 0), (64, 0, 1, 0), (64, 64, 1, 1), (0, 64, 0, 1))
BLACK, WHITE = bytes((0, 0, 0, 255)), bytes((255, 255, 255, 255))


def reds(block):
    return list(block.texels[2][::4])


class Filters(unittest.TestCase):
    def test_a_texture_is_laid_on_as_the_filter_has_it_between_its_texels(self):
        block, = scene(*image(2, 1, BLACK + WHITE), *LINEAR, *FACE).blocks
        self.assertEqual(block.texels[:2], (18, 9))
        # In the middle of step i stands texel (i + 0.5) / 9 - 0.5: 0 at step 4, 4/9 of 255 at
        # step 8, 5/9 of it at step 9, and 1 at step 13.
        row = reds(block)[:18]
        self.assertEqual((row[4], row[8], row[9], row[13]), (0, 113, 142, 255))
        self.assertEqual(reds(block), row * 9)

    def test_a_repeated_texture_is_mixed_over_its_seam(self):
        calls = [*LINEAR[:1], ("glTexParameteri", "GL_TEXTURE_2D", "GL_TEXTURE_WRAP_S",
                               "GL_REPEAT")]
        block, = scene(*image(2, 1, BLACK + WHITE), *calls, *FACE).blocks
        # Step 0 stands 4/9 of a texel before the first one, so it has 4/9 of the last.
        self.assertEqual((reds(block)[0], reds(block)[17]), (113, 142))

    def test_neighbours_that_hardly_differ_stay(self):
        block, = scene(*image(2, 1, bytes((100, 0, 0, 255, 124, 0, 0, 255))), *LINEAR,
                       *FACE).blocks
        self.assertEqual(block.texels[:2], (2, 1))

    def test_a_small_part_of_a_large_texture_is_an_image_of_its_own(self):
        stripes = (BLACK + WHITE) * 128 * 256
        part = textured((0, 0, 0, 0), (64, 0, 8 / 256, 0), (64, 64, 8 / 256, 4 / 256),
                        (0, 64, 0, 4 / 256))
        block, = scene(*image(256, 256, stripes), *LINEAR, *part).blocks
        self.assertEqual(block.texels[:2], (72, 36))
        self.assertEqual(block.vertices[2].coordinate, block.vertices[1].coordinate[:1] + (1,))
        self.assertEqual((reds(block)[4], reds(block)[13]), (0, 255))

    def test_what_reaches_a_small_part_of_a_texel_has_one_colour(self):
        # Over the seam of a repeated texture, where the filter has the mean of both ends.
        calls = [*LINEAR[:1], *textured((0, 0, -0.001, 0.5), (64, 0, 0.001, 0.5),
                                        (64, 64, 0.001, 0.5), (0, 64, -0.001, 0.5))]
        block, = scene(*image(2, 1, BLACK + WHITE), *calls).blocks
        self.assertEqual(block.texels, (1, 1, bytes((128, 128, 128, 255))))
        # So it is where neighbours hardly differ, and the ends do.
        ramp = b"".join(bytes((20 * i, 0, 0, 255)) for i in range(12))
        block, = scene(*image(12, 1, ramp), *calls).blocks
        self.assertEqual(block.texels, (1, 1, bytes((110, 0, 0, 255))))

    def test_the_nearest_texel_may_be_asked_for_and_is_told_with_its_weight(self):
        made = converted(pickled(WINDOW, CLEAR, PLANE, *image(2, 1, BLACK + WHITE), *LINEAR, *FACE,
                                 SWAP), "--nearest")
        self.assertEqual(made.scene.blocks[0].texels[:2], (2, 1))
        self.assertIn("from_apitrace: approximated a linear filter by the nearest texel 1: "
                      "4 vertices, 4096 pixels", made.lines)

    def test_a_texture_that_is_too_large_is_laid_on_pixel_by_pixel(self):
        stripes = (BLACK + WHITE) * 32 * 64
        # Each pixel's middle lies in the middle of a texel: the picture is the texture.
        block, = scene(*image(64, 64, stripes), *LINEAR, *FACE).blocks
        self.assertEqual(block.texels[:2], (64, 64))
        self.assertEqual(reds(block)[:64], [0, 255] * 32)
        # Half as large, two texels of a row are in a pixel, and its middle lies between them.
        half = textured((0, 0, 0, 0), (32, 0, 1, 0), (32, 32, 1, 1), (0, 32, 0, 1))
        linear = [*LINEAR, ("glTexParameteri", "GL_TEXTURE_2D", "GL_TEXTURE_MIN_FILTER",
                            "GL_LINEAR")]
        block, = scene(*image(64, 64, stripes), *linear, *half).blocks
        self.assertEqual(block.texels[:2], (33, 33))      # with a pixel around it
        self.assertEqual(set(reds(block)[:32]), {128})
        self.assertEqual((block.vertices[2].coordinate[0], block.vertices[2].coordinate[1]),
                         (round(32 / 33 * 65536) / 65536,) * 2)

    def test_letters_in_a_small_part_of_an_image_are_seen_there(self):
        # One row of 128 has more than one colour, and the picture shows its first eight texels.
        row = (BLACK + WHITE) * 64
        empty = BLACK * 128
        part = textured((0, 0, 0, 0), (64, 0, 8 / 128, 0), (64, 64, 8 / 128, 4 / 128),
                        (0, 64, 0, 4 / 128))
        block, = scene(*image(128, 128, empty * 3 + row + empty * 124), *LINEAR, *part).blocks
        self.assertEqual(block.texels[:2], (72, 36))
        self.assertEqual(reds(block)[72 * 31:][4:14:9], [0, 255])

    def test_a_sliver_of_a_mipmap_has_what_is_in_its_middle(self):
        # A hundredth of a pixel wide, and 64 texels along its 32 pixels: image 1, whose columns are
        # those of image 0, which are black and white by fours.
        columns = (BLACK * 4 + WHITE * 4) * 8 * 64
        sliver = textured((8, 8, 0, 0), (40, 8, 1, 0), (40, 8.01, 1, 0))
        mixed = ("glTexParameteri", "GL_TEXTURE_2D", "GL_TEXTURE_MIN_FILTER",
                 "GL_LINEAR_MIPMAP_LINEAR")
        made = scene(*image(64, 64, columns), *LINEAR, mixed, *sliver).blocks
        self.assertEqual([block.texels[:2] for block in made], [(1, 1)])

    def test_a_texture_that_is_bent_over_a_polygon_is_laid_on_by_triangles(self):
        stripes = (BLACK + WHITE) * 32 * 64
        bent = textured((0, 0, 0, 0), (64, 0, 1, 0), (64, 64, 1, 1), (0, 64, 0, 0.5))
        first, second = scene(*image(64, 64, stripes), *LINEAR, *bent).blocks
        self.assertEqual([len(block.vertices) for block in (first, second)], [3, 3])

    def test_images_of_a_mipmap_are_mixed_pixel_by_pixel(self):
        # 128 by 128 texels in 64 by 64 pixels: image 1, all of it 128, and with a bias of a half
        # half of image 2. Image 1 is the mean of black and white columns of two.
        columns = (BLACK * 2 + WHITE * 2) * 32 * 128
        mixed = [("glTexParameteri", "GL_TEXTURE_2D", "GL_TEXTURE_MIN_FILTER",
                  "GL_LINEAR_MIPMAP_LINEAR")]
        block, = scene(*image(128, 128, columns), *LINEAR, *mixed, *FACE).blocks
        self.assertEqual(reds(block)[:4], [0, 255, 0, 255])
        bias = ("glTexParameterf", "GL_TEXTURE_2D", "GL_TEXTURE_LOD_BIAS", 0.5)
        block, = scene(*image(128, 128, columns), *LINEAR, *mixed, bias, *FACE).blocks
        # Of image 2, which is 127 all over, and of image 1, half each.
        self.assertEqual(reds(block)[8:12], [64, 191, 64, 191])

    def test_where_a_frame_has_too_many_pixels_steps_are_larger_and_told(self):
        stripes = (BLACK + WHITE) * 32 * 64
        many = [call for _ in range(513) for call in FACE[1:-1]]
        quads = [("glBegin", "GL_QUADS"), *many, ("glEnd",)]
        made = converted(pickled(WINDOW, CLEAR, PLANE, *image(64, 64, stripes), *LINEAR, *quads,
                                 SWAP))
        self.assertEqual(made.scene.blocks[0].texels[:2], (192, 192))
        self.assertIn("from_apitrace: approximated a linear filter by steps of 1/3 texel 1: "
                      f"2052 vertices, {513 * 4096} pixels", made.lines)
        cut = converted(pickled(WINDOW, CLEAR, PLANE, *image(64, 64, stripes), *LINEAR, *quads,
                                SWAP), "--cut-textures").scene
        self.assertEqual({block.texels[:2] for block in cut.blocks},
                         {(w, h) for w in (256, 64) for h in (256, 64)})


class Weights(unittest.TestCase):
    def test_a_state_tells_what_is_drawn_under_it(self):
        stencil = ("glEnable", "GL_STENCIL_TEST")
        square = textured((0, 0, 0, 0), (8, 0, 0, 0), (8, 8, 0, 0), (0, 8, 0, 0))
        made = converted(pickled(WINDOW, CLEAR, PLANE, *square, stencil, *square, *square, SWAP))
        self.assertIn("from_apitrace: left out glEnable(GL_STENCIL_TEST) 1: 8 vertices, "
                      "128 pixels", made.lines)

    def test_what_shaders_draw_is_told_and_what_makes_them_is_not(self):
        made = converted(pickled(WINDOW, CLEAR, ("glCreateShader", "GL_VERTEX_SHADER"),
                                 ("glUniform1f", 1, 2.0), ("glUseProgram", 3),
                                 ("glDrawArrays", "GL_TRIANGLES", 0, 9), SWAP))
        self.assertIn("from_apitrace: left out glUseProgram 1: 9 vertices, 0 pixels", made.lines)
        self.assertEqual([line for line in made.lines if "Shader" in line or "Uniform" in line], [])

    def test_what_is_drawn_with_a_copy_of_the_picture_is_told(self):
        copied = ("glCopyTexSubImage2D", "GL_TEXTURE_2D", 0, 0, 0, 0, 0, 2, 1)
        made = converted(pickled(WINDOW, CLEAR, PLANE, *image(2, 1, BLACK + WHITE), copied, *FACE,
                                 SWAP))
        self.assertIn("from_apitrace: left out glCopyTexSubImage2D 1: 4 vertices, 4096 pixels",
                      made.lines)
        whole = ("glCopyTexImage2D", "GL_TEXTURE_2D", 0, "GL_RGB", 0, 0, 2, 2, 0)
        made = converted(pickled(WINDOW, CLEAR, PLANE, *image(2, 1, WHITE + WHITE), whole, *FACE,
                                 SWAP))
        self.assertEqual(made.scene.blocks[0].texels, (1, 1, BLACK))
        self.assertIn("from_apitrace: left out glCopyTexImage2D 1: 4 vertices, 4096 pixels",
                      made.lines)

    def test_edges_are_told_where_there_are_many(self):
        # A square of 64 by 64 pixels has a 64th of its 256 pixels of edges: four; 21 are told.
        told = "from_apitrace: approximated edges, whose places are sixteenths of a pixel 1: "
        for squares, line in ((5, None), (6, told + "24 vertices, 24 pixels")):
            made = converted(pickled(WINDOW, CLEAR, PLANE, *squares * primitive(
                "GL_POLYGON", (0, 0), (64, 0), (64, 64), (0, 64)), SWAP))
            self.assertEqual([line for line in made.lines if "edges" in line], [line][:bool(line)])

    def test_a_frame_buffer_object_is_not_drawn_in(self):
        made = converted(pickled(WINDOW, CLEAR, PLANE, ("glBindFramebuffer", "GL_FRAMEBUFFER", 1),
                                 ("glViewport", 0, 0, 256, 256), CLEAR, *FACE,
                                 ("glBindFramebuffer", "GL_FRAMEBUFFER", 0), WINDOW, SWAP))
        self.assertEqual((made.scene.size, made.scene.blocks), ((64, 64), []))
        self.assertIn("from_apitrace: left out what is drawn into a frame buffer object 1: "
                      "4 vertices, 0 pixels", made.lines)
