"""Fog, which is laid over colours of vertices."""
import math

FINEST = 8      # how often a line is halved at most


class FogLaw:
    """How much of a colour is left at a distance from the viewer."""

    def __init__(self, fog):
        self.fog = fog
        self.over = 1.0 / (fog.end - fog.start) if fog.end != fog.start else 0.0
        self.power = 2 if fog.mode == "GL_EXP2" else 1

    def left(self, distance):
        fog = self.fog
        if fog.mode == "GL_LINEAR":
            left = (fog.end - distance) * self.over if self.over else 1.0
            return max(0.0, min(1.0, left))
        return math.exp(-min(1e3, fog.density * distance) ** self.power)

    def laid_over(self, colors, eyes):
        """The colours at these places, in fog."""
        red, green, blue, _ = self.fog.color
        found = []
        for (r, g, b, a), eye in zip(colors, eyes):
            f = self.left(abs(eye[2]))
            rest = 1 - f
            r, g, b = max(0.0, min(1.0, r)), max(0.0, min(1.0, g)), max(0.0, min(1.0, b))
            found.append((f * r + rest * red, f * g + rest * green, f * b + rest * blue, a))
        return found

    def veils(self, distances):
        """The fog's colour at these distances, in channels from 0 to 255, as thick as it is."""
        red, green, blue = (255 * max(0.0, min(1.0, x)) for x in self.fog.color[:3])
        return [(red, green, blue, 255 * (1 - self.left(abs(w)))) for w in distances]

    def cuts(self, near, far, depth=FINEST):
        """Where a line from one distance to another is cut, from 0 to 1, so that fog is nearly
        linear along each piece: a long line may be in fog at both its ends and not between."""
        ends, middle = (self.left(abs(near)), self.left(abs(far))), (near + far) / 2
        places = ((1 - t) * near + t * far for t in (0.25, 0.5, 0.75))
        linear = ((1 - t) * ends[0] + t * ends[1] for t in (0.25, 0.5, 0.75))
        if not depth or all(abs(self.left(abs(z)) - f) < 0.02 for z, f in zip(places, linear)):
            return []
        before = [t / 2 for t in self.cuts(near, middle, depth - 1)]
        return before + [0.5] + [0.5 + t / 2 for t in self.cuts(middle, far, depth - 1)]
