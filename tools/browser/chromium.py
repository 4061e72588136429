"""A headless Chromium that is driven over two pipes: no port is opened."""
import base64
import json
import os
import select
import subprocess
import tempfile
import time


# what a keyboard sends for keys that are no letters
CODES = {'Tab': 9, 'Enter': 13, 'Escape': 27, 'End': 35, 'Home': 36, 'ArrowLeft': 37, 'ArrowRight': 39}


class Failure(Exception):
    """Chromium did not answer, or answered with an error."""


class Chromium:
    def __init__(self, program='chromium'):
        self.folder = tempfile.TemporaryDirectory(prefix='fleet-chromium-')
        to_child, self.commands = os.pipe()
        self.answers, from_child = os.pipe()

        def pipes():
            # Chromium reads commands from descriptor 3 and writes answers to 4.
            high_in, high_out = os.dup(to_child), os.dup(from_child)
            in_free, out_free = os.dup2(high_in, 30), os.dup2(high_out, 31)
            os.dup2(in_free, 3)
            os.dup2(out_free, 4)

        words = [program, '--headless=new', '--no-sandbox', '--disable-gpu', '--remote-debugging-pipe',
                 f'--user-data-dir={self.folder.name}', '--no-first-run', '--disable-extensions',
                 '--disable-background-networking', '--disable-component-update', '--disable-sync', 'about:blank']
        self.process = subprocess.Popen(words, preexec_fn=pipes, close_fds=False, stdout=subprocess.DEVNULL,
                                        stderr=subprocess.DEVNULL)
        os.close(to_child)
        os.close(from_child)
        self.buffer = b''
        self.number = 0
        self.session = None
        self.complaints = []
        self.loaded = False

    def __enter__(self):
        targets = self.send('Target.getTargets')['targetInfos']
        page = next(target for target in targets if target['type'] == 'page')
        self.session = self.send('Target.attachToTarget', targetId=page['targetId'], flatten=True)['sessionId']
        for domain in ('Page', 'Runtime', 'Log'):
            self.send(f'{domain}.enable')
        return self

    def __exit__(self, *_):
        try:
            self.session = None
            self.send('Browser.close', seconds=10)
        except Failure:
            pass
        try:
            self.process.wait(10)
        except subprocess.TimeoutExpired:
            self.process.kill()
            self.process.wait()
        os.close(self.commands)
        os.close(self.answers)
        self.folder.cleanup()

    def send(self, method, seconds=60, **parameters):
        self.number += 1
        command = {'id': self.number, 'method': method, 'params': parameters}
        if self.session is not None:
            command['sessionId'] = self.session
        os.write(self.commands, json.dumps(command).encode() + b'\0')
        return self.wait_for(lambda message: message.get('id') == self.number, seconds, method)

    def wait_for(self, passes, seconds, what):
        end = time.monotonic() + seconds
        while True:
            message = self.receive(end, what)
            self.note(message)
            if passes(message):
                if 'error' in message:
                    raise Failure(f'{what}: {message["error"]}')
                return message.get('result', message)

    def receive(self, end, what):
        while b'\0' not in self.buffer:
            ready, _, _ = select.select([self.answers], [], [], max(0, end - time.monotonic()))
            if not ready:
                raise Failure(f'{what}: no answer')
            piece = os.read(self.answers, 1 << 20)
            if not piece:
                raise Failure(f'{what}: Chromium ended')
            self.buffer += piece
        message, self.buffer = self.buffer.split(b'\0', 1)
        return json.loads(message)

    def note(self, message):
        """Keeps what a console would show in red."""
        method, parameters = message.get('method'), message.get('params', {})
        if method == 'Runtime.exceptionThrown':
            details = parameters['exceptionDetails']
            self.complaints.append(details.get('exception', {}).get('description', details['text']))
        elif method == 'Runtime.consoleAPICalled' and parameters['type'] in ('error', 'warning', 'assert'):
            self.complaints.append(str([value.get('value') for value in parameters['args']]))
        elif method == 'Log.entryAdded' and parameters['entry']['level'] in ('error', 'warning'):
            self.complaints.append(parameters['entry']['text'])
        elif method == 'Page.loadEventFired':
            self.loaded = True

    def open(self, address, seconds=60):
        self.loaded = False
        self.complaints = []
        self.send('Page.navigate', url=address)
        while not self.loaded:
            self.wait_for(lambda message: message.get('method') == 'Page.loadEventFired', seconds, 'load')

    def run(self, script, seconds=60):
        answer = self.send('Runtime.evaluate', seconds=seconds, expression=script, returnByValue=True, awaitPromise=True)
        if 'exceptionDetails' in answer:
            raise Failure(f'{script}: {answer["exceptionDetails"]}')
        return answer['result'].get('value')

    def key(self, name, code=None, shift=False, modifiers=0):
        number = CODES.get(name, ord(name.upper()) if len(name) == 1 else 0)
        press = {'key': name, 'code': code or name, 'modifiers': modifiers | (8 if shift else 0), 'windowsVirtualKeyCode': number}
        if len(name) == 1:
            press['text'] = name
        self.send('Input.dispatchKeyEvent', type='keyDown', **press)
        self.send('Input.dispatchKeyEvent', type='keyUp', **press)

    def middle_of(self, selector):
        return self.run(f'(() => {{ const one = document.querySelector({json.dumps(selector)}); one.scrollIntoView({{block: "nearest"}}); '
                        'const box = one.getBoundingClientRect(); return [box.left + box.width / 2, box.top + box.height / 2]; })()')

    def mouse(self, kind, x, y):
        buttons = 0 if kind == 'mouseReleased' else 1
        self.send('Input.dispatchMouseEvent', type=kind, x=x, y=y, button='left', buttons=buttons, clickCount=1)

    def press(self, x, y):
        self.mouse('mousePressed', x, y)
        self.mouse('mouseReleased', x, y)

    def click(self, selector):
        self.press(*self.middle_of(selector))

    def drag(self, selector, right, down):
        x, y = self.middle_of(selector)
        self.mouse('mousePressed', x, y)
        for part in (0.1, 0.5, 1):
            self.mouse('mouseMoved', x + right * part, y + down * part)
        self.mouse('mouseReleased', x + right, y + down)

    def touch(self, on):
        self.send('Emulation.setTouchEmulationEnabled', enabled=on, maxTouchPoints=5)

    def fingers(self, kind, *places):
        points = [{'x': x, 'y': y, 'id': number} for number, (x, y) in enumerate(places)]
        self.send('Input.dispatchTouchEvent', type=kind, touchPoints=points)

    def tap(self, x, y):
        self.fingers('touchStart', (x, y))
        self.fingers('touchEnd')

    def swipe(self, start, end):
        self.fingers('touchStart', start)
        for step in range(1, 11):
            self.fingers('touchMove', tuple(a + (b - a) * step / 10 for a, b in zip(start, end)))
            time.sleep(0.02)
        self.fingers('touchEnd')

    def pinch(self, middle, start, end):
        """Two fingers, each so far from the middle, move to another distance."""
        x, y = middle
        pair = lambda far: ((x - far, y), (x + far, y))
        self.fingers('touchStart', pair(start)[0])
        self.fingers('touchStart', *pair(start))
        for step in range(1, 11):
            self.fingers('touchMove', *pair(start + (end - start) * step / 10))
            time.sleep(0.02)
        self.fingers('touchEnd')

    def size(self, width, height, mobile=False):
        self.send('Emulation.setDeviceMetricsOverride', width=width, height=height, deviceScaleFactor=1, mobile=mobile)

    def reload(self, seconds=60):
        self.loaded = False
        self.send('Page.reload')
        while not self.loaded:
            self.wait_for(lambda message: message.get('method') == 'Page.loadEventFired', seconds, 'load')

    def scheme(self, name):
        self.send('Emulation.setEmulatedMedia', features=[{'name': 'prefers-color-scheme', 'value': name}])

    def picture(self, path):
        shot = self.send('Page.captureScreenshot', format='png')
        with open(path, 'wb') as file:
            file.write(base64.b64decode(shot['data']))
