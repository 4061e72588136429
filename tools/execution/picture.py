"""Draws a run of an execution next to lock-step, as SVG: used by tools/execution/simulate."""

LEFT, WIDTH, ROW, TOP, MOST = 60, 860, 12, 36, 10
STYLE = """<style>
text { font: 14px sans-serif; fill: #333 }
text.robot { font-size: 10px }
path { stroke-width: .72; fill: none }
.usual { stroke: #3b78b5 }
.slow { stroke: #e07b1a }
.axis { stroke: #888; stroke-width: 1 }
.still { fill: #eef0f3 }
</style>"""


def bars(moves, usual):
    """The paths of usual moves and of slow ones, in units of time and of rows; a move is (robot, begin, takes)."""
    paths = {"usual": [], "slow": []}
    for name, path in paths.items():
        last = None
        for robot, begin, takes in sorted(moves):
            if (takes > usual) != (name == "slow"):
                continue
            if last and last[0] == robot:
                path.append(f"m{begin - last[1]:g} 0" if begin > last[1] else "")
            else:
                path.append(f"M{begin:g} {robot + 0.5:g}")
            path.append(f"h{takes:g}")
            last = robot, begin + takes
    return [f'<path class="{name}" d="{"".join(path)}"/>' for name, path in paths.items() if path]


def panel(title, moves, robots, scale, top, end, usual):
    """The title, a field for the robots up to the end, and their moves."""
    lines = [f'<text x="{LEFT}" y="{top - 9}">{title}</text>']
    lines.append(f'<rect class="still" x="{LEFT}" y="{top}" width="{end * scale:.1f}" height="{robots * ROW}"/>')
    lines += [f'<text class="robot" x="{LEFT - 6}" y="{top + (robot + 0.8) * ROW:g}" text-anchor="end">robot {robot}</text>' for robot in range(robots)]
    return [*lines, f'<g transform="translate({LEFT} {top}) scale({scale:.4f} {ROW})">', *bars(moves, usual), "</g>"]


def picture(moves, starts, makespan):
    """`moves` are those of the execution, each (robot, step, begin, takes); `starts` has the time at which lock-step begins each
    step, and that of its end. Of more robots the first ten are drawn."""
    whole, usual = starts[-1], min(takes for *_, takes in moves)
    moves = [move for move in moves if move[0] < MOST]
    robots = 1 + max(move[0] for move in moves)
    scale = WIDTH / max(whole, makespan)
    below = TOP + robots * ROW + 40
    axis = below + robots * ROW + 10
    lines = [f'<svg xmlns="http://www.w3.org/2000/svg" viewBox="0 0 {LEFT + WIDTH + 20} {axis + 30}">', STYLE, '<rect width="100%" height="100%" fill="#fff"/>']
    lines += panel(f"In lock-step: {whole:g}", [(r, starts[t - 1], takes) for r, t, _, takes in moves], robots, scale, TOP, whole, usual)
    lines += panel(f"By fleet execute: {makespan:g}", [(r, begin, takes) for r, _, begin, takes in moves], robots, scale, below, makespan, usual)
    lines.append(f'<path class="axis" d="M{LEFT} {axis}h{WIDTH}"/>')
    lines += [f'<text x="{LEFT + time * scale:.1f}" y="{axis + 18}" text-anchor="middle">{time}</text>' for time in range(0, int(whole) + 1, 100)]
    return "\n".join([*lines, "</svg>", ""])
