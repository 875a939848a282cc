#!/usr/bin/env python3
"""Turns the text of a scene into bytes, in a moment and without the program.

    python3 tools/pack.py < scene.txt > scene.rcs

Of versions 1 and 2 it writes what `render_cli pack` writes. A text that begins with `scene 3 WIDTH
HEIGHT` may have call lists: `NewList N`, `EndList` and `CallList N` stand among the other commands.

Wrong text is told with its line, and the status is then 1.
"""
import command
import scene_forms
import scene_text


def main():
    command.Words(__doc__).parse_args()
    text = scene_text.read(command.read_input())
    command.write_output(scene_forms.scene_bytes(text.scene))


if __name__ == "__main__":
    command.run(main)
