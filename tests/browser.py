"""A headless Chromium, driven by its DevTools protocol over two pipes: what tests/rbacaudit_page.py needs of
it, and no more.

A message is JSON that ends in a zero byte. The browser gets a profile of its own, and is ended by
its own process. `browser.py PAGE '#ADDRESS' PICTURE.png` takes a picture of a page.
"""

import base64
import contextlib
import json
import os
import select
import shutil
import subprocess
import sys
import tempfile
import time

NAMES = ('chromium', 'chromium-browser', 'google-chrome')
# (a container has no room in /dev/shm, and root no sandbox)
OPTIONS = ['--headless', '--remote-debugging-pipe', '--no-sandbox', '--disable-gpu',
           '--disable-dev-shm-usage', '--no-first-run',
           '--no-default-browser-check', '--disable-background-networking',
           '--disable-component-update', '--disable-extensions',
           '--hide-scrollbars', '--force-device-scale-factor=1', '--lang=en-US']
PATIENCE = 120


def found():
    """The browser's program, or nothing if this machine has none."""
    return next(filter(None, map(shutil.which, NAMES)), None)


class Browser:
    """A browser with one tab, whose console, requests and faults are written down."""

    def __init__(self, profile, size=(1280, 800)):
        to_browser, self.out = os.pipe()
        self.into, from_browser = os.pipe()
        # (bash, since other shells redirect no descriptor above 9; the protocol wants 3 and 4)
        launch = 'exec "$@" 3<&%d 4>&%d' % (to_browser, from_browser)
        command = [found(), *OPTIONS, '--user-data-dir=' + profile, '--window-size=%d,%d' % size,
                   'about:blank']
        self.process = subprocess.Popen(['bash', '-c', launch, 'browser', *command],
                                        pass_fds=(to_browser, from_browser),
                                        stdin=subprocess.DEVNULL, stdout=subprocess.DEVNULL,
                                        stderr=subprocess.DEVNULL)
        os.close(to_browser)
        os.close(from_browser)
        self.waiting, self.number, self.session = b'', 0, None
        self.messages, self.requests = [], []
        targets = self.ask('Target.getTargets')['targetInfos']
        tab = next(target for target in targets if target['type'] == 'page')['targetId']
        self.session = self.ask('Target.attachToTarget', targetId=tab, flatten=True)['sessionId']
        for part in ('Page', 'Runtime', 'Network', 'Log'):
            self.ask(part + '.enable')

    def read(self):
        """The next message of the browser."""
        while b'\0' not in self.waiting:
            if not select.select([self.into], [], [], PATIENCE)[0]:
                raise TimeoutError('the browser says nothing')
            got = os.read(self.into, 1 << 20)
            if not got:
                raise EOFError('the browser has ended')
            self.waiting += got
        message, _, self.waiting = self.waiting.partition(b'\0')
        return json.loads(message)

    def note(self, message):
        """Writes down what a page does by itself: what it logs, what fails in it, and what it asks
        for."""
        method, given = message.get('method'), message.get('params', {})
        if method == 'Runtime.consoleAPICalled':
            self.messages.append('%s: %s' % (given['type'],
                                             [it.get('value') for it in given['args']]))
        elif method == 'Runtime.exceptionThrown':
            self.messages.append(json.dumps(given['exceptionDetails'])[:2000])
        elif method == 'Log.entryAdded':
            self.messages.append(given['entry']['text'])
        elif method == 'Page.javascriptDialogOpening':
            self.messages.append('dialog: ' + given['message'])
            self.send('Page.handleJavaScriptDialog', accept=True)
        elif method == 'Network.requestWillBeSent':
            self.requests.append(given['request']['url'][:200])

    def send(self, method, **given):
        self.number += 1
        message = {'id': self.number, 'method': method, 'params': given}
        if self.session:
            message['sessionId'] = self.session
        rest = json.dumps(message).encode() + b'\0'
        while rest:
            rest = rest[os.write(self.out, rest):]
        return self.number

    def ask(self, method, **given):
        """What the browser answers."""
        number = self.send(method, **given)
        while True:
            message = self.read()
            if message.get('id') == number:
                if 'error' in message:
                    raise RuntimeError('%s: %s' % (method, message['error']))
                return message['result']
            self.note(message)

    def do(self, script):
        """The value of a script in the page, once it has settled if it is a promise."""
        answer = self.ask('Runtime.evaluate', expression=script, returnByValue=True,
                          awaitPromise=True, userGesture=True)
        if 'exceptionDetails' in answer:
            raise RuntimeError('%s: %s' % (script, json.dumps(answer['exceptionDetails'])[:2000]))
        return answer['result'].get('value')

    def open(self, path):
        """Opens a file, and gives the seconds until its first view is drawn."""
        self.messages.clear()
        self.requests.clear()
        began = time.monotonic()
        self.ask('Page.navigate', url='file://' + path)
        self.until('document.readyState === "complete" && !document.querySelector("[aria-busy]")')
        self.frame()
        return time.monotonic() - began

    def until(self, script):
        """Waits until a script is true in the page."""
        ends = time.monotonic() + PATIENCE
        while not self.do(script):
            if time.monotonic() > ends:
                raise TimeoutError('never true: ' + script)
            time.sleep(0.02)

    def frame(self):
        """Waits until what changed is drawn."""
        self.do('new Promise(done => requestAnimationFrame(() => requestAnimationFrame(done)))')

    def click(self, x, y):
        for kind in ('mousePressed', 'mouseReleased'):
            self.ask('Input.dispatchMouseEvent', type=kind, x=x, y=y, button='left', clickCount=1)
        self.frame()

    def type(self, text):
        self.ask('Input.insertText', text=text)
        self.frame()

    def press(self, key, code, text=''):
        for kind in ('keyDown', 'keyUp'):
            self.ask('Input.dispatchKeyEvent', type=kind, key=key, code=key,
                     windowsVirtualKeyCode=code, **({'text': text} if text else {}))
        self.frame()

    def memory(self):
        """The most bytes of memory that a process of a page has had at once."""
        found, waiting, parents = [0], [self.process.pid], {}
        for name in filter(str.isdigit, os.listdir('/proc')):
            with contextlib.suppress(OSError), open('/proc/%s/stat' % name, encoding='utf-8', errors='replace') as file:
                parents.setdefault(int(file.read().rpartition(')')[2].split()[1]), []).append(int(name))
        while waiting:
            number = waiting.pop()
            waiting += parents.get(number, [])
            with contextlib.suppress(OSError), open('/proc/%d/cmdline' % number, encoding='utf-8', errors='replace') as file:
                if '--type=renderer' in file.read():
                    with open('/proc/%d/status' % number, encoding='utf-8') as status:
                        found += [1024 * int(line.split()[1]) for line in status if line.startswith('VmHWM:')]
        return max(found)

    def close(self):
        with contextlib.suppress(OSError, EOFError, TimeoutError, RuntimeError):
            self.session = None
            self.ask('Browser.close')
        try:
            self.process.wait(20)
        except subprocess.TimeoutExpired:
            self.process.kill()
            self.process.wait()
        os.close(self.out)
        os.close(self.into)


@contextlib.contextmanager
def browser(**how):
    with tempfile.TemporaryDirectory(ignore_cleanup_errors=True) as profile:
        it = Browser(profile, **how)
        try:
            yield it
        finally:
            it.close()


def picture(page, address, path):
    """Writes a picture of a page, as docs/page.png is one of examples/cluster."""
    with browser() as it:
        it.ask('Emulation.setDeviceMetricsOverride', width=1280, height=760, deviceScaleFactor=1,
               mobile=False)
        it.open(os.path.abspath(page))
        it.do('location.hash = %s' % json.dumps(address))
        it.frame()
        with open(path, 'wb') as file:
            file.write(base64.b64decode(it.ask('Page.captureScreenshot', format='png')['data']))


if __name__ == '__main__':
    picture(*sys.argv[1:])
