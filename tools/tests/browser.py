"""A Chromium without a window, driven through two pipes: what tools/tests/test_page needs of it."""
import base64
import json
import os
import shutil
import subprocess
import tempfile

NAMES = ('chromium', 'chromium-browser', 'google-chrome', 'google-chrome-stable')


def found():
    """The path of a Chromium, or None."""
    return next((path for path in map(shutil.which, NAMES) if path), None)


class Browser:
    """One page of a Chromium. It keeps nothing: its folder goes with it."""

    def __init__(self, program):
        self.folder = tempfile.mkdtemp()
        to_read, self.to_write = os.pipe()
        self.to_read, to_write = os.pipe()
        os.set_inheritable(to_read, True)
        os.set_inheritable(to_write, True)
        words = [program, '--headless', '--no-sandbox', '--disable-gpu', '--hide-scrollbars', '--remote-debugging-pipe', '--no-first-run',
                 '--disable-background-networking', '--user-data-dir=' + self.folder, 'about:blank']
        line = 'exec 8<&%d 9>&%d; exec "$@" 3<&8 4>&9 8<&- 9>&-' % (to_read, to_write)
        self.process = subprocess.Popen(['sh', '-c', line, 'sh', *words], stdin=subprocess.DEVNULL, stdout=subprocess.DEVNULL,
                                        stderr=subprocess.DEVNULL, pass_fds=(to_read, to_write))
        os.close(to_read)
        os.close(to_write)
        self.asked, self.session, self.rest, self.errors = 0, None, b'', []
        target = next(each for each in self.send('Target.getTargets')['targetInfos'] if each['type'] == 'page')
        self.session = self.send('Target.attachToTarget', targetId=target['targetId'], flatten=True)['sessionId']
        for domain in ('Runtime', 'Page', 'Log', 'DOM'):
            self.send(domain + '.enable')

    def message(self):
        """The next message; an EOFError where the browser has ended."""
        while b'\0' not in self.rest:
            more = os.read(self.to_read, 1 << 20)
            if not more:
                raise EOFError('the browser has ended')
            self.rest += more
        text, _, self.rest = self.rest.partition(b'\0')
        return json.loads(text)

    def send(self, method, **params):
        """What the browser answers; a RuntimeError where it refuses. What the page complains of meanwhile is kept in `errors`."""
        self.asked += 1
        message = {'id': self.asked, 'method': method, 'params': params, **({'sessionId': self.session} if self.session else {})}
        left = json.dumps(message).encode() + b'\0'
        while left:
            left = left[os.write(self.to_write, left):]
        while True:
            got = self.message()
            if got.get('id') == self.asked:
                if 'error' in got:
                    raise RuntimeError('%s: %s' % (method, got['error']))
                return got['result']
            if got.get('method') in ('Runtime.exceptionThrown', 'Log.entryAdded'):
                self.errors.append(json.dumps(got['params'])[:500])

    def value(self, expression):
        """The value of an expression of the page, which may be awaited; a RuntimeError where it throws."""
        got = self.send('Runtime.evaluate', expression=expression, awaitPromise=True, returnByValue=True)
        if 'exceptionDetails' in got:
            raise RuntimeError(json.dumps(got['exceptionDetails'])[:500])
        return got['result'].get('value')

    def open(self, url):
        """Opens a page, and waits until it is there."""
        self.send('Page.navigate', url=url)
        self.until('document.readyState === "complete"')

    def until(self, expression, seconds=60):
        """The first value of an expression that is true; a RuntimeError where there is none in time."""
        pause = 'new Promise(later => setTimeout(later, 20))'
        return self.value('(async () => { const end = Date.now() + %d; let it; while (!(it = (%s)) && Date.now() < end) await %s; '
                          'if (!it) throw new Error("not within %d s: " + %s); return it; })()'
                          % (seconds * 1000, expression, pause, seconds, json.dumps(expression)))

    def choose(self, selector, *paths):
        """Chooses files in an input of the page."""
        root = self.send('DOM.getDocument')['root']
        node = self.send('DOM.querySelector', nodeId=root['nodeId'], selector=selector)
        self.send('DOM.setFileInputFiles', nodeId=node['nodeId'], files=[os.path.abspath(path) for path in paths])

    def drop(self, selector, *paths):
        """Drops files on the middle of an element, as a mouse does."""
        at = self.value('(it => (it.scrollIntoView({block: "center"}), it = it.getBoundingClientRect(), [it.x + it.width / 2, it.y + it.height / 2]))'
                        '(document.querySelector(%s))' % json.dumps(selector))
        data = {'items': [], 'files': [os.path.abspath(path) for path in paths], 'dragOperationsMask': 1}
        for kind in 'dragEnter', 'dragOver', 'drop':
            self.send('Input.dispatchDragEvent', type=kind, x=at[0], y=at[1], data=data)

    def key(self, key, code=0, **more):
        """Presses a key and lets it go."""
        for kind in 'keyDown', 'keyUp':
            self.send('Input.dispatchKeyEvent', type=kind, key=key, code=key, windowsVirtualKeyCode=code, **more)

    def picture(self, path, width=1200, height=1000, is_dark=False, is_whole=True):
        """Writes a picture of the page."""
        self.send('Emulation.setDeviceMetricsOverride', width=width, height=height, deviceScaleFactor=1, mobile=False)
        self.send('Emulation.setEmulatedMedia', features=[{'name': 'prefers-color-scheme', 'value': 'dark' if is_dark else 'light'}])
        self.value('new Promise(later => setTimeout(later, 150))')
        with open(path, 'wb') as file:
            file.write(base64.b64decode(self.send('Page.captureScreenshot', format='png', captureBeyondViewport=is_whole)['data']))

    def close(self):
        os.close(self.to_write)
        self.process.kill()
        self.process.wait()
        os.close(self.to_read)
        shutil.rmtree(self.folder, ignore_errors=True)
