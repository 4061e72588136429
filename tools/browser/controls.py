"""What a page must do when its controls are used with real clicks, keys and fingers, beyond showing the right tick."""
import time

# the window of a laptop of 1366 by 768, less the browser's own bars
LAPTOP = (1366, 638)
ALT, CONTROL, COMMAND = 1, 2, 4
BOX = ('(() => { const box = document.getElementById("map").getBoundingClientRect(); '
       'return [box.left, box.top, box.width, box.height]; })()')


def shown(browser, name):
    return browser.run(f'document.body.dataset.{name}')


def wait(browser, milliseconds):
    browser.run(f'new Promise((done) => setTimeout(done, {milliseconds}))')


class Controls:
    """Uses the controls of an open page, and keeps what is wrong. `last` is its last tick."""

    def __init__(self, browser, last, fault):
        self.browser, self.last, self.fault = browser, last, fault
        self.compared = 0

    def expect(self, name, wanted, how):
        self.compared += 1
        is_now = shown(self.browser, name)
        if is_now != wanted:
            self.fault(f'{how}: {name} is {is_now!r}, and should be {wanted!r}')

    def expect_true(self, holds, how):
        self.compared += 1
        if not holds:
            self.fault(how)

    def all(self):
        self.keys_after_clicks()
        self.keys_on_focused_controls()
        self.pan_and_read_by_key()
        self.pick()
        self.play_where_it_says()
        self.address_follows()
        self.map_stays()
        self.charts_seek()
        self.pick_by_other_keyboards()
        self.fits_a_laptop()

    def click_then_keys(self, selector):
        """After a click on any control the space bar plays, and arrow keys step."""
        browser = self.browser
        browser.key('Home')
        browser.click(selector)
        if shown(browser, 'playing') == 'true':
            browser.key(' ', 'Space')
        browser.key('End')
        self.expect('frame', str(self.last), f'End after a click on {selector}')
        browser.key('ArrowLeft')
        self.expect('frame', str(self.last - 1), f'ArrowLeft after a click on {selector}')
        browser.key('Home')
        browser.key(' ', 'Space')
        self.expect('playing', 'true', f'the space bar after a click on {selector}')
        browser.key(' ', 'Space')
        self.expect('playing', 'false', f'the space bar again after a click on {selector}')

    def keys_after_clicks(self):
        # at one tick a second the replay does not come to its end between two keys, even on a machine that is busy
        for _ in range(5):
            self.browser.click('#slower')
        selectors = ('#play', '#on', '#back', '#slider', '#show-heat', '#show-heat', '#events', '#faster', '#slower', '#zoom-in',
                     '#zoom-fit', '#map')
        for selector in selectors:
            self.click_then_keys(selector)
        if shown(self.browser, 'robot') != 'none':
            self.browser.key('Escape')

    def keys_on_focused_controls(self):
        """Who comes to a control by the tabulator key can use it by the space bar."""
        browser = self.browser
        browser.run('document.getElementById("map").focus()')
        checked = 'document.getElementById("show-goals").checked'
        before = browser.run(checked)
        for _ in range(30):
            browser.key('Tab')
            if browser.run('document.activeElement.id') == 'show-goals':
                break
        browser.key(' ', 'Space')
        self.expect_true(browser.run(checked) != before, 'the space bar switches a box that has the focus')
        browser.key(' ', 'Space')
        browser.key('?')
        self.expect_true(browser.run('document.getElementById("help").open'), '? shows the keys')
        browser.key('Escape')
        self.expect_true(not browser.run('document.getElementById("help").open'), 'Escape closes the keys')

    def pan_and_read_by_key(self):
        browser = self.browser
        browser.click('#zoom-fit')
        for _ in range(4):
            browser.key('+')
        for key, axis, sign in (('d', 0, 1), ('a', 0, -1), ('s', 1, 1), ('w', 1, -1)):
            before = [float(part) for part in shown(browser, 'middle').split()]
            browser.key(key)
            after = [float(part) for part in shown(browser, 'middle').split()]
            self.expect_true((after[axis] - before[axis]) * sign > 0, f'the key {key} moves the map')
        browser.key('c')
        said = browser.run('document.getElementById("announce").textContent')
        self.expect_true(said.startswith('cell '), 'the key c tells a cell')
        browser.key('0')
        self.expect('zoom', '1.00', 'the key 0')

    def pick(self):
        browser = self.browser
        browser.key('Escape')
        browser.key(']')
        self.expect('robot', '0', 'the key ]')
        browser.click('#robots tr:nth-child(2) td')
        self.expect('robot', '1', 'a click on a row')
        text = browser.run('document.getElementById("picked").textContent')
        self.expect_true(text.startswith('Robot 1 is on cell '), 'the picked robot is told of')
        browser.click('#unpick')
        self.expect('robot', 'none', 'the button all robots')
        left, top = browser.run(BOX)[:2]
        x, y = browser.run('[page.view.xs[1] / page.view.ratio, page.view.ys[1] / page.view.ratio]')
        browser.press(left + x, top + y)
        self.expect('robot', '1', 'a click on the robot')
        self.follow()

    def follow(self):
        """The picked robot is in the middle, unless the map's edge is too near."""
        browser = self.browser
        browser.key('+')
        browser.key('+')
        browser.key('f')
        middle = [float(part) for part in shown(browser, 'middle').split()]
        cell = int(shown(browser, 'cells').split()[1])
        sides = browser.run('[page.map.width, page.map.height]')
        shown_sides = browser.run('[page.view.canvas.width, page.view.canvas.height].map((side) => side / page.view.view.scale)')
        for axis, place in enumerate((cell % sides[0] + 0.5, cell // sides[0] + 0.5)):
            half = min(shown_sides[axis], sides[axis]) / 2
            wanted = min(max(place, half), sides[axis] - half)
            self.expect_true(abs(middle[axis] - wanted) < 0.1, f'the key f keeps the robot in the middle ({axis})')
        browser.key('Escape')
        browser.key('0')

    def play_where_it_says(self):
        """Play begins at the tick that is shown; a new address stops it, and the button says so."""
        browser = self.browser
        browser.key('Home')
        browser.key('ArrowRight')
        browser.click('#play')
        self.expect('playing', 'true', 'the button play')
        opened = int(shown(browser, 'clock')) - int(shown(browser, 'frame'))
        browser.run(f'location.hash = "#t={opened + 2}"')
        wait(browser, 80)
        self.expect('playing', 'false', 'a new address while it plays')
        self.expect('frame', '2', 'a new address while it plays')
        label = browser.run('document.getElementById("play").getAttribute("aria-label")')
        self.expect_true(label == 'Play', 'the button says Play after a new address')
        wait(browser, 300)
        self.expect('frame', '2', 'a new address stays')
        browser.run('page.player.play(); page.player.then = performance.now() - 60000; 0')
        wait(browser, 60)
        browser.key(' ', 'Space')
        # at one tick a second a minute would end the replay of the ring
        self.expect_true(int(shown(browser, 'frame')) < self.last, 'a page that stood still goes on from where it was')
        wait(browser, 400)
        self.expect_true(browser.run('page.player.fraction') == 0, 'robots come to rest on their cells')

    def address_follows(self):
        browser = self.browser
        browser.key('Home')
        browser.key('ArrowRight')
        browser.key(']')
        browser.key('+')
        wait(browser, 500)
        words = browser.run('location.hash')
        clock = shown(browser, 'clock')
        wanted = f'#t={clock}&robot={shown(browser, "robot")}&zoom=1.5'
        self.expect_true(words.startswith(wanted), f'the address follows ({words})')
        zoom = shown(browser, 'middle')
        browser.key('Escape')
        browser.key('0')
        browser.key('End')
        wait(browser, 500)
        browser.run(f'location.hash = {words!r}')
        wait(browser, 80)
        self.expect('clock', clock, 'an address of before')
        self.expect('robot', '0', 'an address of before')
        again = zip(zoom.split(), shown(browser, 'middle').split())
        self.expect_true(all(abs(float(a) - float(b)) < 0.2 for a, b in again), 'an address of before keeps the place')
        browser.key('Escape')
        browser.key('0')

    def map_stays(self):
        """Zoom and middle stay at a new size and in other colours; the map cannot be dragged away."""
        browser = self.browser
        for _ in range(3):
            browser.key('+')
        zoom = shown(browser, 'zoom')
        browser.size(1440, 944)
        wait(browser, 80)
        self.expect('zoom', zoom, 'a new size')
        browser.scheme('dark')
        wait(browser, 50)
        self.expect('zoom', zoom, 'other colours')
        browser.scheme('light')
        browser.drag('#map', 3000, 3000)
        left = browser.run('[page.view.view.left, page.view.view.top]')
        room = browser.run('[page.view.canvas.width, page.view.canvas.height]')
        self.expect_true(all(left[axis] <= room[axis] / 2 for axis in (0, 1)), 'the map stays on its canvas')
        browser.key('0')
        browser.size(1440, 1000)

    def pick_by_other_keyboards(self):
        """Where [ and ] are typed with AltGr or Option, they pick a robot; with the command key they are the browser's."""
        browser = self.browser
        for modifiers, picks in ((ALT, True), (ALT | CONTROL, True), (COMMAND, False)):
            browser.key('Escape')
            browser.key(']', modifiers=modifiers)
            self.expect('robot', '0' if picks else 'none', f'the key ] with modifiers {modifiers}')
        browser.key('Escape')

    def fits_a_laptop(self):
        """On a laptop's window what is told, the legend and the slider are to be seen, and a pick by key or click does not scroll the window."""
        browser = self.browser
        browser.size(*LAPTOP)
        wait(browser, 80)
        browser.run('window.scrollTo(0, 0)')
        robots = browser.run('page.replay.robots')
        for name in ('#map', '#time', '#hover', '.robot', '.legend'):
            top, bottom = browser.run(f'(() => {{ const box = document.querySelector("{name}").getBoundingClientRect(); return [box.top, box.bottom]; }})()')
            self.expect_true(top >= 0 and bottom <= LAPTOP[1], f'{name} is in the window ({top:.0f} to {bottom:.0f})')
        browser.key('Escape')
        for _ in range(robots):
            browser.key(']')
            self.expect_true(browser.run('window.scrollY') == 0, 'a pick by key does not scroll the window')
        self.expect('robot', str(robots - 1), 'the key ], once for each robot')
        shown_row = ('(() => { const box = document.querySelector("#robots").closest(".scroll").getBoundingClientRect(); '
                     'const row = document.querySelector("#robots tr.picked").getBoundingClientRect(); '
                     'return row.top >= box.top - 1 && row.bottom <= box.bottom + 1; })()')
        self.expect_true(browser.run(shown_row), 'the row of the picked robot is in its table')
        left, top = browser.run(BOX)[:2]
        x, y = browser.run('[page.view.xs[0] / page.view.ratio, page.view.ys[0] / page.view.ratio]')
        browser.press(left + x, top + y)
        self.expect('robot', '0', 'a click on a robot')
        self.expect_true(browser.run('window.scrollY') == 0, 'a pick by click does not scroll the window')
        self.expect_true(browser.run(shown_row), 'the row of the robot that was clicked is in its table')
        browser.key('Escape')
        browser.size(1440, 1000)

    def charts_seek(self):
        browser = self.browser
        browser.key('Home')
        browser.click('#idle-chart')
        frame = int(shown(browser, 'frame'))
        self.expect_true(0 < frame <= self.last, 'a click on a chart goes to a tick')
        browser.key('Home')


def touch(browser, fault):
    """Two fingers zoom; one scrolls the page as long as the whole map is shown; controls are 44 pixels high."""
    browser.touch(True)
    browser.size(390, 844, mobile=True)
    wait(browser, 500)
    browser.reload()
    box = browser.run(BOX)
    x, y = box[0] + box[2] / 2, box[1] + box[3] / 2
    browser.swipe((x, y + 40), (x, y - 160))
    time.sleep(0.3)
    if browser.run('window.scrollY') < 40:
        fault('a swipe on the whole map scrolls the page')
    browser.run('window.scrollTo(0, 0)')
    time.sleep(0.2)
    browser.pinch((x, y), 30, 90)
    zoom = float(shown(browser, 'zoom'))
    if not 2 < zoom < 4.5:
        fault(f'two fingers zoom by three ({zoom})')
    browser.size(390, 788, mobile=True)
    wait(browser, 80)
    if float(shown(browser, 'zoom')) != zoom:
        fault('the zoom stays if the height changes')
    browser.key('0')
    scale = browser.run('page.view.view.scale / page.view.ratio')
    left, top = browser.run(BOX)[:2]
    x, y = browser.run('[page.view.xs[0] / page.view.ratio, page.view.ys[0] / page.view.ratio]')
    far = max(14, scale * 0.5)
    browser.tap(left + x + (far if x < box[2] / 2 else -far), top + y)
    if shown(browser, 'robot') != '0':
        fault(f'a tap {far:.0f} pixels next to a robot picks it ({shown(browser, "robot")})')
    small = browser.run('[...document.querySelectorAll("button, select, label")].filter((one) => one.offsetParent !== null '
                        '&& !one.closest("#events") && one.getBoundingClientRect().height < 44).map((one) => one.id || one.textContent)')
    if small:
        fault(f'controls are smaller than 44 pixels: {small}')
    browser.touch(False)
    browser.size(1440, 1000)
