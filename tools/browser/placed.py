"""Runs as the page carries them, from placements and from traces: written from docs/VIEW.md, next to what the program writes."""

MOST_LISTED = 20000


def signs(cell):
    """A number below 2^32 as six signs of 64, from `?` on."""
    return ''.join(chr(63 + (cell >> (6 * place)) % 64) for place in range(5, -1, -1))


def step(width, old, new):
    for letter, by in (('.', 0), ('n', -width), ('s', width), ('w', -1), ('e', 1)):
        if new == old + by:
            return letter
    return '!' + signs(new)


def plan_run(width, places, conflicts=()):
    """Conflicts are lines as `fleet check --all` prints them."""
    lines = [f'plan {len(places)} {len(conflicts)}']
    before = []
    for place in places:
        old = before + [0] * (len(place) - len(before))
        lines.append(''.join(step(width, one, new) for one, new in zip(old, place)))
        before = place
    return ''.join(f'{line}\n' for line in [*lines, *conflicts[:MOST_LISTED]])


def trace_run(verdict, text):
    return f'trace {verdict}\n{text}\n'


def belts(robots, steps, width=160):
    """Rows of a map, and placements of robots that go round on belts of two rows each, of which each third one goes half as fast."""
    spaces = 2 * width
    each = spaces * 7 // 10
    count = -(-robots // each)
    rows = ['.' * width] * (2 * count)

    def cell(belt, place):
        place %= spaces
        return (2 * belt) * width + place if place < width else (2 * belt + 1) * width + spaces - 1 - place

    own = [(robot % count, robot // count * 10 // 7) for robot in range(robots)]
    places = [[cell(belt, place + (time // 2 if belt % 3 == 0 else time)) for belt, place in own] for time in range(steps + 1)]
    return rows, places
