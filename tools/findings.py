"""What the notes of a run tell beside numbers: races, clients that wait for ever, refused commands.

`findings` gives each once, as the page of a run shows it: its kind, its title and its lines.
"""
import notes
import reasons
import scene_bytes
from command import Wrong


def finding(kind, title, *lines, **more):
    return {"kind": kind, "title": title, "lines": list(lines), **more}


def named(scene, client, place):
    """A command with its place, and its lines where they are known."""
    if client >= len(scene.streams) or place >= len(scene.streams[client]):
        raise Wrong(f"the notes aren't those of this scene: client {client} has no command {place}")
    stream = scene.streams[client]
    first = scene_bytes.block_start(stream, place) if stream[place][0] == scene_bytes.END else None
    ends = [stream[place if first is None else first], stream[place]]
    start, line = (getattr(placed, "line", None) for placed in ends)
    where = (
        "" if line is None else f", line {line}" if start == line else f", lines {start} to {line}"
    )
    return f"client {client}, command {place}: {scene_bytes.told_block(stream, place)}{where}"


def frame_of(scene, client, place):
    """In which frame, from 0, a command stands: the swaps of its client before it."""
    return sum(placed[0] == scene_bytes.SWAP for placed in scene.streams[client][:place])


def race_of(scene, match):
    """Both commands of a race, the pixel or the shared texture at which they meet, and the frame.
    """
    client, place, other, behind = map(int, match.groups()[:4])
    where = f"pixel {match[5]} {match[6]}" if match[5] else f"shared texture {match[7]}"
    made = finding("race", f"A race at {where}", named(scene, client, place))
    made["lines"] += [named(scene, other, behind), "Nothing orders these two commands."]
    made["commands"] = [[client, place], [other, behind]]
    made["frame"] = frame_of(scene, other, behind)
    if match[5]:
        column, row = int(match[5]), int(match[6])
        top = scene.height - 1 - row
        made["pixel"] = [column, top]
        meeting = f"They meet at column {column}, row {row} from the bottom ({top} from the top)."
        made["lines"].append(meeting)
    return made


def refused(known, scene, match, title, of_client):
    """A refused command, and why where that is known: what was computed of its client is kept."""
    client, place = int(match[1]), int(match[3])
    made = finding("fault", f"{title}: {match[2]}", named(scene, client, place))
    key = title, client
    if key not in known:
        known[key] = of_client(client)
    fault, reason = known[key].get(place, ("", ""))
    if fault == match[2]:
        made["lines"].append(f"{reason[0].upper()}{reason[1:]}.")
    return made


def found_in(scene, read, line, known):
    """What one line tells, or nothing."""
    if match := notes.RACE.fullmatch(line):
        return race_of(scene, match)
    if line == "race none":
        return finding("fine", "No race", "Every two commands that conflict are ordered.")
    if match := notes.STUCK.fullmatch(line):
        client, place = int(match[1]), int(match[2])
        return finding("stuck", f"Client {client} waits for ever", named(scene, client, place))
    if match := notes.LIST_FAULT.fullmatch(line):
        title = "A list command was left out"
        return refused(
            known, read, match, title, lambda client: reasons.list_refusals(read.streams[client])
        )
    if match := notes.FAULT.fullmatch(line):
        title = "A command was refused"
        return refused(
            known, scene, match, title, lambda client: reasons.refusals(scene, client)
        )
    if line.startswith("rc: ") and line != "rc: stuck":
        return finding("fault", line, "This is how a run ended.")
    return None


def findings(scene, read, lines):
    """What the notes tell, once each. Places are those of the scene that was drawn, those of list
    commands of the one that was read.
    """
    known = {}
    made = (found_in(scene, read, line, known) for line in dict.fromkeys(lines))
    return [found for found in made if found]
