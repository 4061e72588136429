"""Random maps and plans, faults planted in them, and what is to be said of them: an independent checker that goes over all pairs of robots."""
STEPS = {"u": (0, -1), "d": (0, 1), "l": (-1, 0), "r": (1, 0), "w": (0, 0)}


def make_map(rng):
    """Returns the rows of a map, with floor for two robots at least."""
    while True:
        height, width = rng.randint(1, 8), rng.randint(1, 8)
        rows = ["".join(rng.choice("....@T" if rng.random() < 0.5 else "..G.S@O") for _ in range(width)) for _ in range(height)]
        if sum(letter in ".GS" for row in rows for letter in row) >= 2:
            return rows


def is_floor(rows, cell):
    x, y = cell
    return 0 <= y < len(rows) and 0 <= x < len(rows[0]) and rows[y][x] in ".GS"


def floor_of(rows):
    return [(x, y) for y in range(len(rows)) for x in range(len(rows[0])) if is_floor(rows, (x, y))]


def make_plan(rng, rows):
    """Returns placements by time without a conflict: robots choose one after the other."""
    floor = floor_of(rows)
    robots = rng.randint(1, min(len(floor), 9))
    place = rng.sample(floor, robots)
    places = [place]
    for _ in range(rng.randint(0, 12)):
        to = list(place)
        for robot in rng.sample(range(robots), robots):
            x, y = place[robot]
            ways = [(x + dx, y + dy) for dx, dy in STEPS.values()]
            rng.shuffle(ways)
            for way in ways:
                others = [to[other] for other in range(robots) if other != robot]
                exchange = any(to[other] == place[robot] and place[other] == way for other in range(robots) if other != robot)
                if is_floor(rows, way) and way not in others and not (exchange and way != place[robot]):
                    to[robot] = way
                    break
        place = to
        places.append(place)
    return places


def plant(rng, rows, places):
    """Plants a fault, or none, and returns the placements. Which fault comes first is for `verdict` to say."""
    places, kind = [list(place) for place in places], rng.randrange(10)
    time, robots = rng.randrange(len(places)), len(places[0])
    robot = rng.randrange(robots)
    if kind == 0:
        places[time][robot] = rng.choice([(len(rows[0]), 0), (0, len(rows)), (1500, 1500)])
    elif kind == 1:
        walls = [(x, y) for y in range(len(rows)) for x in range(len(rows[0])) if not is_floor(rows, (x, y))]
        if walls:
            places[time][robot] = rng.choice(walls)
    elif kind == 2 and robots > 1:
        places[time][robot] = places[time][(robot + 1) % robots]
    elif kind == 3 and time:
        places[time].pop()
    elif kind == 4 and time:
        places[time].append(rng.choice([(0, 0), (1, 1)]))
    elif kind == 5 and robots > 1:
        other = (robot + 1) % robots
        for later in range(time, len(places)):
            places[later][robot], places[later][other] = places[later][other], places[later][robot]
    elif kind in (6, 7):
        places[time][robot] = rng.choice(floor_of(rows))
    return places


def fault_of(rows, before, place):
    """Returns the first fault of a placement after another, or at the start, as it prints."""
    if before is not None and len(place) != len(before):
        return "length"
    for robot, cell in enumerate(place):
        if not is_floor(rows, cell):
            return f"off-floor {robot}"
    if before is not None:
        for robot, (old, new) in enumerate(zip(before, place)):
            if abs(old[0] - new[0]) + abs(old[1] - new[1]) > 1:
                return f"not-adjacent {robot}"
    pairs = [(i, j) for i in range(len(place)) for j in range(i + 1, len(place))]
    for i, j in pairs:
        if place[i] == place[j]:
            return f"vertex {i} {j}"
    for i, j in pairs if before is not None else []:
        if place[i] == before[j] and place[j] == before[i]:
            return f"swap {i} {j}"
    return None


def costs_of(places):
    """Returns each robot's cost: the number of the last step in which it moves."""
    return [max([t for t in range(1, len(places)) if places[t][r] != places[t - 1][r]], default=0) for r in range(len(places[0]))]


def head_fault(places, claims, lines):
    """Returns the first thing that the head says and is not so, as it prints; `lines` is the number of lines of the text."""
    steps, costs = len(places) - 1, costs_of(places)
    if claims.get("agents", len(places[0])) != len(places[0]):
        return "agents"
    if claims.get("makespan", 0) > steps:
        return f"{lines + 1} cut"
    if claims.get("makespan", steps) not in (steps, max(costs, default=0)):
        return "makespan"
    if claims.get("soc", sum(costs)) != sum(costs):
        return "soc"
    return None


def verdict(rows, places, goals, claims=None, lines=0, strict=False):
    """Returns what is to be printed, the status, and what is to be said on the error writer."""
    for time, place in enumerate(places):
        fault = fault_of(rows, places[time - 1] if time else None, place)
        if fault:
            return f"invalid {time} {fault}\n", 6, ""
    fault = head_fault(places, claims or {}, lines)
    if fault:
        return "", 6, f"fleet: plan {fault}\n"
    if strict and goals is None:
        return "", 6, "fleet: plan goals\n"
    off = [robot for robot, (goal, cell) in enumerate(zip(goals or [], places[-1])) if goal != cell]
    if strict and off:
        return f"invalid {len(places) - 1} off-goal {off[0]}\n", 6, ""
    costs = costs_of(places)
    text = f"valid {len(places) - 1} {len(places[0])}\nsum-of-costs {sum(costs)}\nmakespan {max(costs, default=0)}\n"
    if goals is not None:
        text += f"on-goals {sum(goal == cell for goal, cell in zip(goals, places[-1]))}\n"
    return text, 0, ""
