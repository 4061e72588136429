"""Pages of plans with many robots, and of two runs: what they show next to a reading of the placements outside of the page, and what `fleet view` prints for them."""
import pathlib
import random
import subprocess
import time

from kinds import LogRun, Run, TraceRun, spoilt
from page_text import page_of_runs
from placed import belts, plan_run

HERE = pathlib.Path(__file__).resolve().parent


def stored_trace(name):
    folder = HERE / 'cases' / name
    rows = [row for row in (folder / 'map').read_text().split('\n')[4:] if row]
    return rows, (folder / '0.trace').read_text().strip('\n')


def cases():
    """Each with its name, its rows and its runs."""
    rows, places = belts(600, 40, 60)
    wall_rows = ['@' + row[1:] for row in rows]
    small_rows, small = belts(60, 30, 20)
    ring_rows, ring = stored_trace('ring_of_eight')
    ring_run = TraceRun(ring)
    return [
        ('many', rows, [Run(rows, places)]),
        ('many_not_valid', rows, [Run(rows, spoilt(places, 1))]),
        ('many_on_walls', wall_rows, [Run(wall_rows, places)]),
        ('two_plans', small_rows, [Run(small_rows, small), Run(small_rows, spoilt(small[:21], 2))]),
        ('many_twice', rows, [Run(rows, places[:10]), Run(rows, spoilt(places[:25], 3))]),
        ('plan_and_trace', ring_rows, [Run(ring_rows, ring_run.places[:15]), ring_run]),
        ('two_traces', ring_rows, [ring_run, TraceRun(ring)]),
        ('execution', small_rows, [LogRun(small, 4)]),
        ('plan_and_execution', small_rows, [Run(small_rows, small), LogRun(small, 5)]),
    ]


class Check:
    def __init__(self, browser, name, runs):
        self.browser, self.name, self.runs = browser, name, runs
        self.compared, self.faults = 0, []
        self.last = max(len(run.places) for run in runs) - 1

    def same(self, what, shown, wanted):
        self.compared += 1
        if shown != wanted:
            self.faults.append(f'{self.name}: {what} is {str(shown)[:300]!r}, and should be {str(wanted)[:300]!r}')

    def frame(self, frame, how):
        data = self.browser.run('({...document.body.dataset})')
        self.same(f'{how}: frame', data['frame'], str(frame))
        wanted = [run.shown(frame) for run in self.runs]
        self.same(f'{how}, tick {frame}: cells', data['cells'], ' / '.join(' '.join(map(str, cells[:1000])) for cells, _, _ in wanted))
        for place, (_, figures, wrong) in enumerate(wanted):
            told = dict(part.rsplit(' ', 1) for part in data['figures'].split('; ')[place].split(', '))
            self.same(f'{how}, tick {frame}: figures', {name: told.get(name) for name in figures}, {name: str(value) for name, value in figures.items()})
            self.same(f'{how}, tick {frame}: faults', data['faults'].split(' / ')[place], wrong)

    def all(self):
        browser = self.browser
        self.same('runs', browser.run('document.body.dataset.runs'), ' '.join(run.kind for run in self.runs))
        self.frame(0, 'at first')
        for frame in [self.last, *(random.Random(5).randrange(self.last + 1) for _ in range(6))]:
            browser.run(f'(() => {{ const s = document.getElementById("slider"); s.value = {frame}; s.dispatchEvent(new Event("input", {{bubbles: true}})); }})()')
            self.frame(frame, 'slider')
        browser.key('Home')
        browser.key('ArrowRight')
        self.frame(1, 'ArrowRight')
        browser.click('#on')
        self.frame(2, 'button')
        self.conflicts()
        self.zoom()
        browser.key('Home')
        browser.key(' ', 'Space')
        time.sleep(0.4)
        browser.key(' ', 'Space')
        frame = int(browser.run('document.body.dataset.frame'))
        self.same('play moves', frame > 0, True)
        self.frame(frame, 'play')

    def conflicts(self):
        """The list has the conflicts, a click and a key go to their ticks."""
        browser = self.browser
        frames = sorted({int(line.split()[1]) for run in self.runs if run.kind == 'plan' for line in run.conflicts})
        self.same('the list of conflicts is hidden', browser.run('document.getElementById("conflicts-card").hidden'), frames == [])
        if frames == []:
            return
        browser.key('Home')
        browser.click('#events li:first-child button')
        self.same('the first conflict', browser.run('document.body.dataset.frame'), str(frames[0]))
        browser.key('End')
        browser.key('b')
        before = [frame for frame in frames if frame < self.last]
        self.same('the conflict before the end', browser.run('document.body.dataset.frame'), str(before[-1]))

    def zoom(self):
        """All maps are zoomed alike; zooming in and fitting gives the same picture again."""
        browser = self.browser
        browser.key('Home')
        # what flashes at this tick does so no more
        browser.run('page.player.flashing = undefined; page.view.pulse = 0; page.draw()')
        picture = '[...document.querySelectorAll(".map canvas")].map((one) => one.toDataURL()).join()'
        before = browser.run(picture)
        browser.click('#zoom-in')
        zoomed = browser.run(picture)
        self.same('zoom of each map', browser.run('new Set(page.views.map((view) => view.zoom)).size'), 1)
        browser.click('#zoom-fit')
        self.same('zoom changes the picture', zoomed != before, True)
        self.same('fit gives the picture again', browser.run(picture) == before, True)
        browser.key(']')
        self.same('the picked robot', browser.run('document.body.dataset.robot'), '0')
        self.same('what is told of it', browser.run('document.getElementById("picked").textContent').startswith('Robot 0: cell '), True)
        browser.key('Escape')


def pictures(browser, name, last, folder):
    for scheme, width, height in (('light', 1440, 1000), ('dark', 1440, 1000), ('light', 390, 844), ('dark', 390, 844)):
        browser.size(width, height, mobile=width < 600)
        browser.scheme(scheme)
        browser.run(f'page.player.jump({last // 2})')
        browser.picture(folder / f'{name}_{width}_{scheme}.png')
    browser.size(1440, 1000)
    browser.scheme('light')


def narrow(browser, check):
    """On a phone nothing is wider than the screen, and two maps are below each other."""
    browser.size(390, 844, mobile=True)
    browser.run('new Promise((done) => setTimeout(done, 100))')
    check.same('no part is wider than a phone', browser.run('document.documentElement.scrollWidth <= 390'), True)
    tops = browser.run('[...document.querySelectorAll(".map canvas")].map((one) => one.getBoundingClientRect().left)')
    check.same('maps are below each other', len(set(tops)), 1)
    browser.size(1440, 1000)


def compare_program(fleet, folder, check, rows, runs):
    """`fleet view` prints the page byte for byte."""
    map_file = pathlib.Path(folder) / 'runs.map'
    map_file.write_text(f'type octile\nheight {len(rows)}\nwidth {len(rows[0])}\nmap\n' + ''.join(f'{row}\n' for row in rows))
    files = []
    for place, run in enumerate(runs):
        files.append(pathlib.Path(folder) / f'run_{place}')
        files[-1].write_text(run.file)
    said = subprocess.run([fleet, 'view', map_file, *files], capture_output=True)
    check.same('status of fleet view', (said.returncode, said.stderr), (0, b''))
    check.same('fleet view prints the page', said.stdout == page_of_runs(rows, [run.text for run in runs]).encode(), True)


def check_runs(browser, folder, fleet, picture_folder, only=None):
    """How many values were compared, and what is wrong."""
    compared, faults = 0, []
    for name, rows, runs in cases():
        if only not in (None, name):
            continue
        check = Check(browser, name, runs)
        path = pathlib.Path(folder) / f'{name}.html'
        path.write_text(page_of_runs(rows, [run.text for run in runs]))
        browser.open(path.as_uri())
        check.all()
        narrow(browser, check)
        if picture_folder is not None:
            pictures(browser, name, check.last, picture_folder)
        if fleet is not None:
            compare_program(fleet, folder, check, rows, runs)
        check.faults += [f'{name}: the console says {complaint}' for complaint in browser.complaints]
        compared += check.compared
        faults += check.faults
        print(f'{name}: {check.compared} compared, {len(check.faults)} wrong', flush=True)
    return compared, faults


def measure_many(browser, folder, robots=10000, steps=1000):
    rows, places = belts(robots, steps)
    path = pathlib.Path(folder) / 'many.html'
    path.write_text(page_of_runs(rows, [plan_run(len(rows[0]), places)]))
    print(f'{robots} robots, {steps} steps, {len(rows[0])} by {len(rows)}: a page of {path.stat().st_size / 1e6:.1f} MB')
    for _ in range(3):
        browser.open(path.as_uri(), 120)
        print(f'  shown {int(browser.run("document.body.dataset.loaded")) / 1000:.2f} s after the page was asked for')
    browser.run('page.player.setSpeed(30); delete document.body.dataset.rate; page.player.play()')
    browser.run('new Promise((done) => setTimeout(done, 4200))')
    print(f'  plays 30 ticks a second at {browser.run("document.body.dataset.rate")} frames a second')
