"""Frames of traced OpenGL 1.x programs as scenes: what ../from_apitrace.py is made of.

reading             calls, as `apitrace pickle` writes them
machine             follows the calls; window_calls, state_calls, matrix_calls, texture_calls,
                    list_calls and vertex_calls are what it knows of them, context the values
setting, shading    what drawing needs of the values, and vertices as corners: placed, lit, in fog
lighting, fog       colours of vertices
drawing             polygons as blocks, with clipping and blocks
strokes             points and lines, with diamonds (which pixels a line has) and smooth
images, filters     textures, and what linear filters make of them; baking lays them on by pixels
dealing             items for several clients, and programs beside one another
encoding            the bytes of a scene
pieces              scene after scene of a long trace
command_line        words and notes
"""
