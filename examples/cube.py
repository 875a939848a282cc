#!/usr/bin/env python3
"""Writes a scene of version 2: a textured cube that turns over a floor, in 24 frames and in
perspective, by two clients.

    python3 examples/cube.py > cube.txt             its text
    python3 examples/cube.py bytes > cube.rcs       its bytes

Client 0 draws sky and floor, then both meet at a barrier, then client 1 draws the cube. Drawn by
`render_cli render --tiles 3x2 < cube.rcs | ffmpeg -f image2pipe -framerate 12 -i - -pix_fmt yuv420p
cube.mp4` it is a film without an end.
"""
import math
import pathlib
import sys

sys.path.append(str(pathlib.Path(__file__).resolve().parent.parent / "tools"))
import command  # noqa: E402
import gl  # noqa: E402

FRAMES, WIDTH, HEIGHT = 24, 320, 240
# Each face: the turn that brings it to the front, and its colour.
FACES = (
    ((0, 0, 1, 0), (1.0, 0.84, 0.42)),
    ((90, 0, 1, 0), (0.55, 0.86, 1.0)),
    ((180, 0, 1, 0), (1.0, 0.62, 0.55)),
    ((270, 0, 1, 0), (0.66, 0.95, 0.60)),
    ((-90, 1, 0, 0), (0.95, 0.95, 1.0)),
    ((90, 1, 0, 0), (0.85, 0.70, 1.0)),
)


def tile(side=16):
    """Texels: a frame of wood, and a chequered field of four by four in it."""
    for y in range(side):
        for x in range(side):
            rim = min(x, y, side - 1 - x, side - 1 - y)
            if rim < 2:
                shade = (120, 84, 52) if rim == 0 else (176, 128, 82)
                yield *shade, 255
            else:
                light = 255 if ((x - 2) // 3 + (y - 2) // 3) % 2 else 150
                yield light, light, light, 255


# Heights in the window, and the colours there.
SKY = ((1, (0.07, 0.09, 0.24)), (0.7, (0.30, 0.24, 0.46)), (0.4, (0.98, 0.66, 0.52)))
FLOOR = -1.7
EYE, CENTRE = (0, 2.4, 7.2), (0, 0.1, 0)


def look(client):
    """The eye: a little above the floor, looking at the cube."""
    client.perspective(32, WIDTH / HEIGHT, 1, 30)
    client.look_at(EYE, CENTRE)


def sky(client):
    """Bands of colour, in clip coordinates: both matrices are the identity meanwhile."""
    client.push()
    client.load_identity()
    client.matrix_mode(gl.PROJECTION)
    with client.pushed():
        client.load_identity()
        with client.block(gl.QUAD_STRIP):
            for y, color in SKY:
                client.color(*color)
                client.vertex(-1, y)
                client.vertex(1, y)
    client.matrix_mode(gl.MODELVIEW)
    client.pop()


def floor(client):
    """The floor, and on it the cube's shade: a disc that is blended, darkest in its middle."""
    with client.block(gl.POLYGON):
        for x, z, light in ((-9, 4, 0.30), (9, 4, 0.30), (9, -14, 0.62), (-9, -14, 0.62)):
            client.color(light, light * 0.84, light * 0.88)
            client.vertex(x, FLOOR, z)
    client.enable(gl.BLEND)
    client.blend_func(gl.SRC_ALPHA, gl.ONE_MINUS_SRC_ALPHA)
    with client.block(gl.TRIANGLE_FAN):
        client.color(0.05, 0.02, 0.10, 0.85)
        client.vertex(0, FLOOR, 0)
        client.color(0.05, 0.02, 0.10, 0)
        for corner in range(17):
            angle = 2 * math.pi * corner / 16
            client.vertex(2.6 * math.sin(angle), FLOOR, 2.6 * math.cos(angle))
    client.disable(gl.BLEND)


def ground(client):
    """All that is behind the cube."""
    client.clear()
    sky(client)
    floor(client)


def face(client, color):
    """A face of the cube, to the front: two strips of two quads, since textures aren't corrected
    for perspective.
    """
    client.color(*color)
    steps = (-1, 0, 1)
    for bottom, top in zip(steps, steps[1:]):
        with client.block(gl.QUAD_STRIP):
            for x in steps:
                for y in (top, bottom):
                    client.tex_coord((x + 1) / 2, (y + 1) / 2)
                    client.vertex(x, y, 1)


def is_seen(matrix):
    """Whether the face that the matrix brings to its place has its front to the eye."""
    centre = [matrix[8 + at] + matrix[12 + at] for at in range(3)]
    return sum(matrix[8 + at] * (EYE[at] - centre[at]) for at in range(3)) > 0


def cube(client, turn):
    """The cube, turned by so many degrees: of its faces those that are seen are written."""
    turned = gl.multiplied(gl.rotation(turn, 0, 1, 0), gl.rotation(24, 1, 0, 1))
    for (degrees, *axis), color in FACES:
        matrix = gl.multiplied(turned, gl.rotation(degrees, *axis))
        if is_seen(matrix):
            with client.pushed():
                client.multiply(matrix)
                face(client, color)


def scene():
    made = gl.Scene(WIDTH, HEIGHT)
    meeting = made.barrier(2)
    back, front = made.client(), made.client()
    look(back)
    look(front)
    front.tex_image(1, 16, 16, list(tile()))
    front.enable(gl.TEXTURE, gl.DEPTH, gl.CULL)
    for frame in range(FRAMES):
        ground(back)
        back.barrier(meeting)
        front.barrier(meeting)
        cube(front, 360 * frame / FRAMES)
        back.swap()
        front.swap()
    return made


def main():
    words = command.Words(__doc__)
    words.add_argument(
        "form", nargs="?", choices=["text", "bytes"], default="text", help="what is written (text)"
    )
    if words.parse_args().form == "bytes":
        command.write_output(scene().bytes())
    else:
        page = "A textured cube that turns over a floor, in 24 frames. Made by examples/cube.py."
        command.write_output(scene().text(page).encode())


if __name__ == "__main__":
    command.run(main)
