"""The quantities of scenes and of words that are limited, with their ranges: docs/scene-format.md
('Limits').
"""

RANGES = {
    "scene bytes": (0, 33_554_432),
    "width": (1, 2048),
    "height": (1, 2048),
    "clients": (1, 8),
    "shared textures": (0, 16),
    "shared side": (1, 65_535),
    "shared texels": (0, 1_048_576),
    "barriers": (0, 64),
    "barrier count": (1, 8),
    "semaphores": (0, 64),
    "commands": (0, 1_048_576),
    "frames": (0, 1_048_576),
    "pixels": (0, 2_147_483_648),
    "tile columns": (1, 8),
    "tile rows": (1, 8),
    "tiles": (1, 32),
    "depth": (1, 16),
    "size": (1, 4096),
    "held pixels": (0, 33_554_432),
    "expansion": (0, 67_108_864),
}
# What a range has beside its two numbers.
MORE = {
    "tile columns": ", and at most the window's width",
    "tile rows": ", and at most the window's height",
    "shared texels": " in all",
    "commands": " in all streams",
    "pixels": " in all frames",
    "held pixels": " in all frames of `serial`, `last` and `simulate`",
    "expansion": " as costs of all call lists",
}
# Those of the words behind a job, and not of a scene.
OF_WORDS = ("tile columns", "tile rows", "tiles", "depth", "size")


def told(name):
    """A quantity's range in words, or nothing of one that isn't known."""
    if name not in RANGES:
        return ""
    least, most = RANGES[name]
    return f"{least} to {most}{MORE.get(name, '')}"
