"""What `fleet explain` says of a plan, and the trace that `fleet convert --to trace` makes of it, worked out from the placements."""
import json

WANTED = {
    "head": "is neither `KEY=VALUE` before `solution=`, nor the next line of cells, `TIME:(X,Y),..`, or of moves, `udlrw`, after it",
    "bare": "is not that of the next time, `TIME:(X,Y),..`",
    "schedule": "is none of `agentK:`, `- x: COLUMN`, `y: ROW` and `t: TIME`, or not that of the next cell",
    "table": "is not that of the next cell, `AGENT,TIME,ROW,COLUMN`, after `agent,time,row,column`",
    "agents": "is not that of the next robot, `Agent K: (ROW,COLUMN)->..`",
}


# what is said of a text that is no JSON, before the place at which its reader stopped
NOT_JSON = "it is not UTF-8, or not JSON, or nested deeper than 127"


def cell_text(rows, cell):
    x, y = cell
    if not (0 <= y < len(rows) and 0 <= x < len(rows[0])):
        return "a cell outside of the map"
    return f"cell {y * len(rows[0]) + x} (row {y}, column {x})"


def fault_sentence(rows, places, words):
    """Returns what is said of the first placement at fault, which `fleet check` names by these words."""
    time, kind, robots = int(words[1]), words[2], [int(word) for word in words[3:]]
    if kind == "length":
        return f"time {time}: it has not a cell for each robot"
    robot = robots[0]
    came, comes = (cell_text(rows, places[at][robot]) for at in (max(time - 1, 0), time))
    if kind == "off-floor":
        return f"time {time}: robot {robot} is on {comes}, which is no floor"
    if kind == "not-adjacent":
        return f"time {time}: robot {robot} comes from {came} to {comes}, which is not next to it"
    if kind == "vertex":
        return f"time {time}: robots {robot} and {robots[1]} are both on {comes}"
    return f"time {time}: robots {robot} and {robots[1]} exchange {came} and {comes}"


def left_for_good(rows, places):
    """Returns the placements of robots of which one that left the map does not come back, as where they are told by moves."""
    outside = (-1, -1)
    held = [places[0]]
    for place in places[1:]:
        gone = [not (0 <= y < len(rows) and 0 <= x < len(rows[0])) for x, y in held[-1]]
        held.append([outside if robot < len(gone) and gone[robot] else cell for robot, cell in enumerate(place)])
    return held


def conflicts(rows, places):
    """Returns the lines of all conflicts of placements, by time and robot; cells outside of the map are one cell."""
    def known(cell):
        return cell if 0 <= cell[1] < len(rows) and 0 <= cell[0] < len(rows[0]) else None

    def is_floor(cell):
        return cell is not None and rows[cell[1]][cell[0]] in ".GS"

    lines = []
    for time, place in enumerate(places):
        after, before = [[known(cell) for cell in at] for at in (place, places[max(time - 1, 0)])]
        if len(after) != len(before):
            lines.append(f"{time} length")
            continue
        for robot, (old, cell) in enumerate(zip(before, after)):
            if not is_floor(cell):
                lines.append(f"{time} off-floor {robot}")
            if old != cell and not (is_floor(old) and is_floor(cell) and abs(old[0] - cell[0]) + abs(old[1] - cell[1]) == 1):
                lines.append(f"{time} not-adjacent {robot}")
            if cell in after[:robot]:
                lines.append(f"{time} vertex {after.index(cell)} {robot}")
            if old != cell and old in after[:robot] and before[after.index(old)] == cell:
                lines.append(f"{time} swap {after.index(old)} {robot}")
    return "".join(f"invalid {line}\n" for line in lines)


def complaint_sentence(form, is_plan, words):
    """Returns what is said where `fleet check` names these words after `fleet: plan`."""
    if words[-1] == "cut":
        if is_plan:
            return f"it ends before the makespan that its head says: line {words[0]} is missing"
        return f"the text ends too early, line {words[0]} is missing"
    if words[0].isdigit():
        return f"line {words[0]} {WANTED[form]}"
    if is_plan:
        return f"the number that its head says under `{words[0]}` is not that of the plan"
    if words[0] == "json":
        return NOT_JSON
    if len(words) == 1:
        return f"`{words[0]}` is missing, or what it has is not in its form"
    return f"under `{words[0]}`, the item of robot {words[1]} is not in its form"


def sentence(rows, places, form, wanted):
    """Returns what is printed, and the status, for a text of which `fleet check` says `wanted`; `places` is None if it is no plan."""
    text, status, complaint = wanted
    if status == 0:
        return "all in order\n", 0, ""
    if text:
        return "the plan: " + fault_sentence(rows, places, text.split()) + "\n", 6, ""
    words = complaint.splitlines()[-1].split()[2:]
    return "the plan: " + complaint_sentence(form, places is not None, words) + "\n", 6, ""


def form_of(text):
    """Returns the form that a text is taken for, or None if it is taken for no plan."""
    start = text.lstrip(" \t\r\n")
    if start.startswith("{"):
        return "json" if '"actualPaths"' in text else None
    if text[:1].isdigit():
        return "bare"
    if text.startswith("Agent "):
        return "agents"
    first = text.split("\n")[0].removesuffix("\r")
    if first == "agent,time,row,column":
        return "table"
    if text.startswith(("statistics:", "schedule:")):
        return "schedule"
    return "head" if "=" in first and not first.startswith("#") else None


def is_trace_of(rows, places, text):
    """Returns whether the text is the trace of robots that stand on their first cells and make a tick for each step."""
    width = len(rows[0])
    cells = [[y * width + x for x, y in place] for place in places]
    robots = [[cell, False, None, [], [0, 0], [0, 0]] for cell in cells[0]]
    opening = {"clients": [[0, 0, 0, False]], "life": 1000000, "queue": 16, "robots": robots, "tick": 0}
    return json.loads(text) == {"chapter": 0, "entries": [["tick", place, [], []] for place in cells[1:]], "opening": opening, "version": 2}
