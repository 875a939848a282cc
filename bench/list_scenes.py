"""Makes scenes with call lists: out of sound ones, by chance, as hostile.py and lists.py begin with; and streams of a known cost, for lists.py and limits.py."""
import scene_lists
from scene_forms import Scene, command

# Names that a list has, and names that none has.
NAMES, NO_NAMES = (1, 2, 3, 63, 64), (0, 65, 255)


def any_name(rng):
    return rng.choice(NO_NAMES) if rng.randrange(12) == 0 else rng.choice(NAMES)


def put(rng, commands, piece):
    """A piece of commands somewhere among the others."""
    at = rng.randrange(len(commands) + 1)
    commands[at:at] = piece


def fold(rng, commands):
    """A part of a stream is recorded, and called in its place."""
    first = rng.randrange(len(commands) + 1)
    last = min(len(commands), first + rng.randint(0, 12))
    name = any_name(rng)
    commands[first:last] = [command("NewList", name), *commands[first:last], command("EndList"), command("CallList", name)]


def change_lists(rng, commands):
    """One change of a stream's lists: more calls, a part recorded, a list that calls another or itself, or a list command out of its place."""
    kind = rng.randrange(9)
    if kind <= 2:
        fold(rng, commands)
    elif kind == 3:
        put(rng, commands, [command("CallList", any_name(rng))] * rng.choice((1, 1, 2, 3)))
    elif kind == 4:
        put(rng, commands, [command("NewList", any_name(rng)), *(command("CallList", any_name(rng)) for _ in range(rng.randint(0, 3))), command("EndList")])
    elif kind == 5:
        put(rng, commands, [command("NewList", any_name(rng))])
    elif kind == 6:
        put(rng, commands, [command("EndList")])
    elif kind == 7:
        # It calls itself, or lists that call it.
        name, calls = rng.choice(NAMES), rng.choice((4, 9, 30)) if rng.randrange(25) == 0 else rng.choice((1, 1, 2))
        put(rng, commands, [command("NewList", name), command("Enable", 2), *(command("CallList", rng.choice((name, any_name(rng)))) for _ in range(calls)),
                            command("EndList"), command("CallList", name)])
    else:
        name = rng.choice(NAMES)
        put(rng, commands, [command("NewList", name), command("Color", rng.randrange(256), 80, 40, 255), command("CallList", name), command("EndList")])


def with_lists(rng, scene, changes):
    """A scene of version 3 with the streams of another one, in which lists were made and called."""
    streams = [list(stream) for stream in scene.streams]
    for _ in range(changes):
        change_lists(rng, rng.choice(streams))
    return Scene(scene.width, scene.height, list(scene.shared), list(scene.barriers), list(scene.semaphores), streams, 3)


# ---- streams of a known cost


PICTURE = command("TexImage", 1, 256, 256, texels=bytes(4 << 16))
IDLE, MADE = command("LoadIdentity"), command("EndList")


def calls(name, count):
    return [command("CallList", name)] * count


def recorded(name, commands):
    return [command("NewList", name), *commands, MADE]


def costing(cost):
    """A stream of so much cost: a picture that is given over and over, and the rest by commands of one byte."""
    whole = scene_lists.cost_of(PICTURE) + 2
    stream = recorded(1, [PICTURE]) + recorded(2, [IDLE] * 1000)
    left = cost - 6
    many, left = divmod(left, whole)
    idle, left = divmod(left, 1002)
    return stream + calls(1, many) + calls(2, idle) + [IDLE] * left


def giving(count):
    """A stream that gives so many commands."""
    return recorded(1, [IDLE] * 1023) + calls(1, count // 1023) + [IDLE] * (count % 1023)
