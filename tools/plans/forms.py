"""Plans as text, in each form that `fleet check` reads, and the readers of what `fleet convert` writes."""
import csv
import io
import json
import re

from making import STEPS, costs_of

TURNS = "ESWN"
AHEAD = {"E": (1, 0), "S": (0, 1), "W": (-1, 0), "N": (0, -1)}


def listed(cells, rng):
    return ",".join(f"({x},{y})" for x, y in cells) + ("," if cells and rng.random() < 0.7 else "")


def claims_of(rng, places):
    """Returns what a head says of the plan: mostly what is so."""
    if len({len(place) for place in places}) > 1:
        return {}
    costs = costs_of(places)
    claims = {
        "agents": len(places[0]),
        "soc": sum(costs),
        "makespan": rng.choice([len(places) - 1, len(places) - 1, max(costs, default=0)]),
    }
    claims = {key: value for key, value in claims.items() if rng.random() < 0.7}
    if claims and rng.random() < 0.2:
        key = rng.choice(list(claims))
        claims[key] = max(claims[key] + rng.choice([-1, 1, 7]), 0)
    return claims


def head_of(rng, places, goals, claims):
    """Returns the lines of a head."""
    lines = [f"{key}={value}" for key, value in claims.items()] + ["map_file=random.map", "solver=RANDOM", "solved=1"]
    rng.shuffle(lines)
    if rng.random() < 0.8:
        lines.append("starts=" + listed(places[0], rng))
    if goals is not None:
        lines.append("goals=" + listed(goals, rng))
    return lines


KNOWN = ("starts", "goals", "form", "agents", "makespan", "soc", "solution")


def with_odd_key(rng, lines):
    """Returns the lines with one whose key is like one that says something, or like none."""
    key = rng.choice(["goal", "Goals", " goals", "goals ", "GOALS", "start", "form x", "Soc", "socs", "solution", "Makespans", "agent", "goalz", "to", "", "\tforms "])
    at = rng.randint(0, lines.index("solution="))
    return [*lines[:at], key + rng.choice(["=3", "= "] if key == "solution" else ["=3", "=", "= "]), *lines[at:]]


def note_of(lines):
    """Returns what is said of the first line whose key says nothing, and is like one that does."""
    for number, line in enumerate(lines, 1):
        if line == "solution=":
            break
        key = line.split("=")[0]
        word = (key.split() or [""])[0].lower()
        for known in KNOWN:
            if key != known and word in (known, known + "s", known.removesuffix("s")):
                return f"fleet: line {number} is ignored, its key is like {known}\n"
    return ""


def cells_lines(rng, places):
    return [f"{time}:{listed(place, rng)}" for time, place in enumerate(places)]


def faced(rng, lines):
    """Returns lines of cells without a head, with directions, and at times one without, and what is to be said of that one."""
    out, wrong = [], None
    for number, line in enumerate(lines, 1):
        time, cells = line.split(":")
        cells = [f"({cell},{rng.choice(['X_PLUS', 'X_MINUS', 'Y_PLUS', 'Y_MINUS'])})" for cell in re.findall(r"\((\d+,\d+)\)", cells)]
        if wrong is None and cells and rng.random() < 0.05:
            robot = rng.randrange(len(cells))
            cell = cells[robot]
            bad = [cell.replace(*change) for change in [("_", "-"), (")", ""), ("(", ""), ("S)", "S,)"), ("_", ",")]]
            cells[robot] = rng.choice(bad + ([cell.rsplit(",", 1)[0] + ")"] if len(cells) > 1 else []))
            wrong = ("", 6, f"fleet: plan {number}\n")
        out.append(f"{time}:" + ",".join(cells))
    return out, wrong


def as_cells(rng, places, goals, claims):
    """Returns the lines of the plan as the planners write it."""
    return [*head_of(rng, places, goals, claims), "solution=", *cells_lines(rng, places)]


def tracks_of(places):
    """Returns each robot's moves, or None where moves cannot say the plan."""
    letters = {step: letter for letter, step in STEPS.items()}
    if len({len(place) for place in places}) > 1:
        return None
    tracks = []
    for robot in range(len(places[0])):
        track = ""
        for before, place in zip(places, places[1:]):
            step = (place[robot][0] - before[robot][0], place[robot][1] - before[robot][1])
            if step not in letters:
                return None
            track += letters[step]
        tracks.append(track)
    return tracks


def trimmed(rng, tracks):
    """Returns the tracks, some without the waits at their ends: after its last letter a robot waits."""
    if tracks and tracks[0] and not all(track.endswith("w") for track in tracks):
        return [track.rstrip("w") if rng.random() < 0.5 else track for track in tracks]
    return tracks


def as_moves(rng, places, goals, claims):
    """Returns the lines of the plan as moves, or None where moves cannot say it."""
    tracks = tracks_of(places)
    if tracks is None:
        return None
    lines = ["form=moves", "starts=" + listed(places[0], rng), *[f"{key}={value}" for key, value in claims.items()]]
    if goals is not None:
        lines.append("goals=" + listed(goals, rng))
    return [*lines, "solution=", *trimmed(rng, tracks)]


def as_agents(rng, places):
    """Returns the lines of the plan as paths, or None where paths cannot say it."""
    if len({len(place) for place in places}) > 1:
        return None
    paths = [[place[robot] for place in places] for robot in range(len(places[0]))]
    full = rng.randrange(len(paths))
    lines = []
    for robot, path in enumerate(paths):
        while robot != full and len(path) > 1 and path[-1] == path[-2] and rng.random() < 0.5:
            path.pop()
        arrow = "->" if rng.random() < 0.8 else ""
        lines.append(f"Agent {robot}: " + "->".join(f"({y},{x})" for x, y in path) + arrow)
    return lines


def agents_fault(rng, lines):
    """Returns the lines with one that is no path of its robot, and what is to be said."""
    robot = rng.randrange(len(lines))
    line = lines[robot]
    wrong = [
        line.replace(f"Agent {robot}:", f"Agent {robot + 1}:"),
        line.replace(": (", ":("),
        line.replace(": (", ": [", 1),
        line.replace(",", " ", 1),
        line.rstrip("->") + "-",
        line.rstrip("->") + "->->",
        f"Agent {robot}: ",
        f"Agent {robot}",
        line[6:],
    ]
    lines = list(lines)
    lines[robot] = rng.choice([one for one in wrong if one != line])
    if robot == 0 and not lines[0].startswith("Agent "):
        lines[0] = "Agent 0: "
    return lines, ("", 6, f"fleet: plan {robot + 1}\n")


def as_table(rng, places):
    """Returns the lines of the plan as a table, or None where paths cannot say it."""
    lines = as_agents(rng, places)
    if lines is None:
        return None
    rows = ["agent,time,row,column"]
    for robot, line in enumerate(lines):
        rows += [f"{robot},{time},{y},{x}" for time, (y, x) in enumerate(re.findall(r"\((\d+),(\d+)\)", line))]
    return rows


def table_fault(rng, lines):
    """Returns the lines of a table with one that does not say the next cell, or without their end, and what is to be said."""
    at = rng.randrange(1, len(lines))
    robot, time, row, column = lines[at].split(",")
    wrong = [
        f"{int(robot) + 2},{time},{row},{column}",
        f"{robot},{int(time) + 1},{row},{column}",
        f"{robot},{time},{row}",
        f"{robot},{time},{row},{column},",
        f"{robot},{time},{row},-{column}",
        f"{robot},{time},{row},{column}.0",
        f"{robot}, {time},{row},{column}",
        f"{robot};{time};{row};{column}",
        "",
        "agent,time,row,column",
    ]
    if at > 1:
        wrong.append(lines[at - 1])
    return [*lines[:at], rng.choice(wrong), *lines[at + 1 :]], ("", 6, f"fleet: plan {at + 1}\n")


def as_schedule(rng, places):
    """Returns the lines of the plan as YAML, or None where paths cannot say it."""
    table = as_table(rng, places)
    if table is None:
        return None
    lines = ["statistics:", "  cost: 6", "  runtime: 0.1"] if rng.random() < 0.7 else []
    lines.append("schedule:")
    for row in table[1:]:
        robot, time, y, x = row.split(",")
        if time == "0":
            lines.append(f"  agent{robot}:")
        lines += [f"    - x: {x}", f"      y: {y}", f"      t: {time}"]
    return lines


def schedule_wrong(lines):
    """Returns the number of the first line of a schedule that may not stand where it does, one more than the last where the lines end too early, or None."""
    begin = next((number for number, line in enumerate(lines, 1) if line.split()[:1] == ["schedule:"]), None)
    if begin is None:
        return len(lines) + 1
    robot, time, before = -1, 0, "schedule"
    for number, line in enumerate(lines[begin:], begin + 1):
        words = line.split() + [""] * 3
        if before in ("name", "time") and words[:2] == ["-", "x:"] and words[2].isdigit():
            before = "column"
        elif before == "column" and words[0] == "y:" and words[1].isdigit():
            before = "row"
        elif before == "row" and words[:2] == ["t:", str(time)]:
            before, time = "time", time + 1
        elif before in ("schedule", "time") and words[0] == f"agent{robot + 1}:":
            before, robot, time = "name", robot + 1, 0
        else:
            return number
    return None if before == "time" else len(lines) + 1


def schedule_fault(rng, lines):
    """Returns the lines of a schedule with a fault, or without their end, and what is to be said."""
    odd = ["", "  robot0:", "  agent0", "  agent0:", "  agent1:", "    x: 3", "    - x:", "    - x: a", "    - y: 3", "      y: -1", "      y:", "      t: 7", "z: 1", "# agent0:", "  cost: 3"]
    while True:
        wrong = list(lines)
        at = rng.randrange(len(wrong))
        kind = rng.randrange(5)
        if kind == 0:
            wrong = wrong[:at]
        elif kind == 1:
            del wrong[at]
        elif kind == 2:
            wrong.insert(at, wrong[at])
        elif kind == 3:
            wrong.insert(rng.randrange(len(wrong)), wrong.pop(at))
        else:
            wrong[at] = rng.choice(odd)
        number = schedule_wrong(wrong)
        # (a text is known as YAML by its first line)
        if number is not None and wrong and wrong[0] in ("statistics:", "schedule:"):
            return wrong, ("", 6, f"fleet: plan {number}{' cut' if number > len(wrong) else ''}\n")


def as_value(rng, places):
    """Returns the plan as a JSON value, or None where moves cannot say it."""
    tracks = tracks_of(places)
    if tracks is None:
        return None
    turn = rng.choice([[], ["E"], [0]])
    value = {
        "start": [[y, x, *turn] for x, y in places[0]],
        "actualPaths": [",".join(track.upper()) for track in trimmed(rng, tracks)],
    }
    if rng.random() < 0.7:
        value["actionModel"] = "MAPF"
    return with_more(rng, value, places)


def with_more(rng, value, places):
    if rng.random() < 0.7:
        value["teamSize"] = len(places[0])
    if rng.random() < 0.5:
        value["errors"] = []
        value["plannerTimes"] = [rng.random() for _ in range(3)]
    keys = list(value)
    rng.shuffle(keys)
    return {key: value[key] for key in keys}


def turning(rng, places):
    """Returns a value for robots that turn, and its placements: each step takes three, two of them for turns."""
    tracks = tracks_of(places)
    if tracks is None or len(places) < 2:
        return None, None
    faces = [rng.choice(TURNS) for _ in places[0]]
    paths = []
    for track, face in zip(tracks, faces):
        acts = []
        for letter in track:
            if letter == "w":
                acts += rng.choice(["WWW", "RCW", "CRW", "WWW"])
                continue
            want = next(name for name, step in AHEAD.items() if step == STEPS[letter])
            right = (TURNS.index(want) - TURNS.index(face)) % 4
            acts += {0: rng.choice(["WW", "RC", "CR"]), 1: rng.choice(["RW", "WR"]), 2: rng.choice(["RR", "CC"]), 3: rng.choice(["CW", "WC"])}[right] + "F"
            face = want
        paths.append(",".join(acts))
    longer = [places[0]] + [place for before, after in zip(places, places[1:]) for place in (before, before, after)]
    value = {"actionModel": "MAPF_T", "start": [[y, x, face] for (x, y), face in zip(places[0], faces)], "actualPaths": paths}
    return with_more(rng, value, places), longer


def turning_fault(rng, value):
    """Returns a value with a fault that only robots that turn can have, and what is to be said."""
    value = json.loads(json.dumps(value))
    robot = rng.randrange(len(value["start"]))
    if rng.random() < 0.5:
        value["start"][robot] = value["start"][robot][:2] + rng.choice([[], ["e"], ["NE"], [0], [None]])
        return value, ("", 6, f"fleet: plan start {robot}\n")
    value["actualPaths"][robot] += rng.choice([",U", ",f", ",,F", " ", ",FF"])
    return value, ("", 6, f"fleet: plan actualPaths {robot}\n")


def value_fault(rng, value):
    """Returns the value with a fault under one of its keys, and what is to be said of it."""
    value = json.loads(json.dumps(value))
    robot = rng.randrange(len(value["start"]))
    kind = rng.randrange(9)
    if kind == 0:
        value["actionModel"] = rng.choice(["MAPF-T", "mapf", 1, None])
        return value, ("", 6, "fleet: plan actionModel\n")
    if kind == 1:
        del value["start"]
        return value, ("", 6, "fleet: plan start\n")
    if kind == 2:
        value["start"][robot] = rng.choice([[0], [], [-1, 0], [0, "0"], [0.5, 0], 3, {"row": 0, "column": 0}])
        return value, ("", 6, f"fleet: plan start {robot}\n")
    if kind == 3:
        value["teamSize"] = rng.choice([len(value["start"]) + 1, "1", None])
        return value, ("", 6, "fleet: plan teamSize\n")
    if kind == 4:
        value["actualPaths"].pop()
        return value, ("", 6, "fleet: plan actualPaths\n")
    if kind == 5:
        value["actualPaths"].append("W")
        return value, ("", 6, "fleet: plan actualPaths\n")
    if kind == 6:
        value["actualPaths"] = rng.choice(["W", None, 7])
        return value, ("", 6, "fleet: plan actualPaths\n")
    path = value["actualPaths"][robot]
    value["actualPaths"][robot] = rng.choice([path + "F" if path else "F", "u", "U ,D", ",", "U,,D", ["U"], 5])
    return value, ("", 6, f"fleet: plan actualPaths {robot}\n")


def as_json(rng, value):
    return rng.choice(["", "", "\n "]) + json.dumps(value, indent=rng.choice([None, 1])) + rng.choice(["", "\n"])


# ---- what `fleet convert` writes, read back


def moved(start, track):
    cells = [start]
    for letter in track:
        dx, dy = STEPS[letter]
        cells.append((cells[-1][0] + dx, cells[-1][1] + dy))
    return cells


def cells_in(text):
    return [(int(x), int(y)) for x, y in re.findall(r"\((\d+),(\d+)\)", text)]


def read_cells(text):
    lines = text.split("solution=\n")[1].splitlines()
    return [cells_in(line) for line in lines]


def read_moves(text):
    head, tracks = text.split("solution=\n")
    paths = [moved(start, track) for start, track in zip(cells_in(head), tracks.splitlines())]
    return [list(place) for place in zip(*paths)]


def read_value(text):
    value = json.loads(text)
    paths = [moved((start[1], start[0]), path.lower().replace(",", "")) for start, path in zip(value["start"], value["actualPaths"])]
    return [list(place) for place in zip(*paths)]


def read_agents(text):
    paths = []
    for line in text.splitlines():
        name, path = line.split(": ")
        assert name == f"Agent {len(paths)}", line
        paths.append([(x, y) for y, x in cells_in(path)])
    return [list(place) for place in zip(*paths, strict=True)]


def read_table(text):
    paths = {}
    for row in csv.DictReader(io.StringIO(text)):
        path = paths.setdefault(int(row["agent"]), [])
        assert int(row["time"]) == len(path), row
        path.append((int(row["column"]), int(row["row"])))
    return [list(place) for place in zip(*(paths[robot] for robot in range(len(paths))), strict=True)]


def read_schedule(text):
    first, *parts = re.split(r"^  agent(\d+):\n", text, flags=re.M)
    assert first == "schedule:\n" and [int(name) for name in parts[::2]] == list(range(len(parts) // 2)), text
    paths = []
    for part in parts[1::2]:
        cells = re.findall(r"^    - x: (\d+)\n      y: (\d+)\n      t: (\d+)\n", part, flags=re.M)
        assert [int(t) for _, _, t in cells] == list(range(len(cells))), part
        paths.append([(int(x), int(y)) for x, y, _ in cells])
    return [list(place) for place in zip(*paths, strict=True)]


READERS = {"pibt2": read_cells, "moves": read_moves, "lorr": read_value, "agents": read_agents, "table": read_table, "yaml": read_schedule}
