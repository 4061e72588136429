"""The picture of traces as SVG, written from docs/VIEW.md and the traces alone, to compare the program's with."""
import json

STYLE = ('<style>.floor{fill:#ffffff}.wall{fill:#6b7789}.grid{fill:none;stroke:#e6eaf0}.edge{fill:none;stroke:#6b7789;stroke-width:2}.bar{fill:#2563eb}'
         '.goal{fill:none;stroke-width:1.5}.ring{fill:none;stroke:#1b2430;stroke-width:1.5}'
         'text{fill:#ffffff;stroke:#000000;stroke-opacity:.6;stroke-width:1.4px;paint-order:stroke;font:600 7px system-ui,sans-serif;text-anchor:middle}'
         '@media(prefers-color-scheme:dark){.floor{fill:#1b222c}.wall{fill:#68758a}.grid{stroke:#262f3b}.edge{stroke:#68758a}.bar{fill:#7aa7ff}.ring{stroke:#e7eaf0}}</style>')


def ring(arrived):
    values = '0' + ''.join(';1' if there else ';0' for there in arrived)
    return ('<circle class="ring" cx="8" cy="8" r="7.2" opacity="0"><animate attributeName="opacity" '
            f'values="{values}" dur="{max(1, len(arrived)) * 200}ms" repeatCount="indefinite"/></circle>')


def picture(rows, texts, tick=None):
    height, width = len(rows), len(rows[0])
    traces = [json.loads(text) for text in texts]
    at = lambda cell: f'{cell % width * 16} {cell // width * 16}'
    walls = ''.join(f'M{at(row * width + column)}h16v16h-16z' for row in range(height) for column in range(width)
                    if rows[row][column] not in '.GS')
    lines = [
        f'<svg xmlns="http://www.w3.org/2000/svg" role="img" aria-label="Robots on a map" viewBox="0 0 {width * 16} {height * 16}" '
        f'width="{width * 16}" height="{height * 16}">',
        STYLE,
        '<pattern id="cell" width="16" height="16" patternUnits="userSpaceOnUse"><path class="grid" d="M16 0v16h-16"/></pattern>',
        '<rect class="floor" width="100%" height="100%"/>',
        '<rect fill="url(#cell)" width="100%" height="100%"/>',
        f'<path class="wall" d="{walls}"/>',
    ]
    ticks = [entry for trace in traces for entry in trace['entries'] if entry[0] == 'tick']
    opened_robots = traces[0]['opening']['robots']
    arrived = [[any(arrival[0] == robot for arrival in entry[2]) for entry in ticks] for robot in range(len(opened_robots))]
    for robot in range(len(opened_robots)):
        squares = ''.join(f'M{at(entry[1][robot])}h12v12h-12z' for entry, there in zip(ticks, arrived[robot]) if there)
        lines.append(f'<path class="goal" transform="translate(2 2)" stroke="hsl({robot * 137508 % 360000}e-3 62% 46%)" d="{squares}"/>')
    for robot, opened in enumerate(opened_robots):
        cells = [opened[0]] + [entry[1][robot] for entry in ticks]
        disc = (f'<circle cx="8" cy="8" r="6.4" fill="hsl({robot * 137508 % 360000}e-3 62% 46%)"/>'
                f'<text x="8" y="10.6">{robot}</text></g>')
        if tick is None:
            values = ';'.join(map(at, cells))
            lines.append(f'<g><animateTransform attributeName="transform" type="translate" values="{values}" '
                         f'dur="{max(1, len(ticks)) * 200}ms" repeatCount="indefinite"/>{ring(arrived[robot])}{disc}')
        else:
            lines.append(f'<g transform="translate({at(cells[min(tick, len(cells) - 1)])})">{disc}')
    if tick is None:
        lines.append('<rect class="bar" y="100%" width="0" height="4" transform="translate(0 -4)"><animate attributeName="width" values="0;100%" '
                     f'dur="{max(1, len(ticks)) * 200}ms" repeatCount="indefinite"/></rect>')
    return '\n'.join([*lines, '<rect class="edge" width="100%" height="100%"/>', '</svg>', ''])
