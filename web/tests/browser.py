"""A headless Chromium, driven over a pipe."""

import base64
import contextlib
import json
import os
import subprocess
import tempfile

KEYS = {'ArrowRight': 39, 'ArrowLeft': 37, 'Tab': 9, 'Home': 36, 'End': 35, '+': 187}
OWN = ('file:', 'data:', 'blob:', 'about:')


class Browser:
    """One page of a Chromium of its own."""

    def __init__(self, chromium='chromium'):
        self.folder = tempfile.TemporaryDirectory(prefix='edfvd-web-', ignore_cleanup_errors=True)
        down, self.to = os.pipe()
        self.come, up = os.pipe()

        def only():
            # The browser reads from descriptor 3 and writes to descriptor 4.
            one, other = os.dup(down), os.dup(up)
            os.dup2(one, 3)
            os.dup2(other, 4)

        self.process = subprocess.Popen(
            [chromium, '--headless=new', '--no-sandbox', '--disable-gpu', '--remote-debugging-pipe', '--no-first-run',
             f'--user-data-dir={self.folder.name}', 'about:blank'],
            preexec_fn=only, close_fds=False, stdin=subprocess.DEVNULL, stdout=subprocess.DEVNULL, stderr=subprocess.DEVNULL)
        os.close(down)
        os.close(up)
        self.rest, self.last, self.events, self.session = b'', 0, [], None
        target = self.call('Target.createTarget', url='about:blank')['targetId']
        self.session = self.call('Target.attachToTarget', targetId=target, flatten=True)['sessionId']
        for domain in ('Page', 'Runtime', 'Log', 'Network'):
            self.call(f'{domain}.enable')

    def message(self):
        while b'\0' not in self.rest:
            got = os.read(self.come, 1 << 20)
            if not got:
                raise EOFError('the browser ended')
            self.rest += got
        text, _, self.rest = self.rest.partition(b'\0')
        return json.loads(text)

    def call(self, method, **params):
        self.last += 1
        number = self.last
        asked = {'id': number, 'method': method, 'params': params, **({'sessionId': self.session} if self.session else {})}
        left = memoryview(json.dumps(asked).encode() + b'\0')
        while left:
            left = left[os.write(self.to, left):]
        while True:
            got = self.message()
            if got.get('id') == number:
                if 'error' in got:
                    raise RuntimeError(f'{method}: {got["error"]}')
                return got['result']
            self.events.append(got)

    def open(self, address):
        self.call('Page.navigate', url=address)

    def value(self, expression):
        """The value of a JavaScript expression, awaited."""
        got = self.call('Runtime.evaluate', expression=expression, awaitPromise=True, returnByValue=True)
        if 'exceptionDetails' in got:
            raise RuntimeError(json.dumps(got['exceptionDetails'])[:800])
        return got['result'].get('value')

    def press(self, key):
        for kind in ('keyDown', 'keyUp'):
            text = {'text': key} if len(key) == 1 and kind == 'keyDown' else {}
            self.call('Input.dispatchKeyEvent', type=kind, key=key, code=key, windowsVirtualKeyCode=KEYS[key], **text)

    def point(self, x, y):
        """Moves the pointer there."""
        self.call('Input.dispatchMouseEvent', type='mouseMoved', x=x, y=y)

    def look(self, width, height, is_dark=False):
        self.call('Emulation.setDeviceMetricsOverride', width=width, height=height, deviceScaleFactor=1, mobile=False)
        self.call('Emulation.setEmulatedMedia', features=[{'name': 'prefers-color-scheme', 'value': 'dark' if is_dark else 'light'}])

    def picture(self):
        return base64.b64decode(self.call('Page.captureScreenshot', captureBeyondViewport=True)['data'])

    def complaints(self):
        """What the page's console had to say."""
        found = []
        for event in self.events:
            if event.get('method') == 'Runtime.exceptionThrown':
                found.append(event['params']['exceptionDetails'].get('exception', {}).get('description', 'exception'))
            if event.get('method') == 'Log.entryAdded' and event['params']['entry']['level'] in ('error', 'warning'):
                found.append(event['params']['entry']['text'])
            if event.get('method') == 'Runtime.consoleAPICalled' and event['params']['type'] in ('error', 'warning'):
                found.append(str([one.get('value', one.get('description')) for one in event['params']['args']]))
        return found

    def sent(self):
        """The addresses of requests that left the page."""
        asked = [event['params']['request']['url'] for event in self.events if event.get('method') == 'Network.requestWillBeSent']
        return [address for address in asked if not address.startswith(OWN)]

    def close(self):
        with contextlib.suppress(Exception):
            self.call('Browser.close')
        try:
            self.process.wait(timeout=20)
        except subprocess.TimeoutExpired:
            self.process.kill()
            self.process.wait()
        self.folder.cleanup()
