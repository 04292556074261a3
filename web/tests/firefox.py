"""A headless Firefox, driven by Marionette."""

import base64
import contextlib
import json
import pathlib
import socket
import subprocess
import tempfile
import time

KEYS = {'ArrowRight': '\ue014', 'ArrowLeft': '\ue012', 'Tab': '\ue004', 'Home': '\ue011', 'End': '\ue010', '+': '+'}


class Firefox:
    def __init__(self, firefox='firefox-esr'):
        self.folder = tempfile.TemporaryDirectory(prefix='edfvd-web-', ignore_cleanup_errors=True)
        with socket.socket() as one:
            one.bind(('127.0.0.1', 0))
            port = one.getsockname()[1]
        pathlib.Path(self.folder.name, 'user.js').write_text(
            f'user_pref("marionette.port", {port});\nuser_pref("browser.dom.window.dump.enabled", true);\nuser_pref("devtools.console.stdout.content", true);\n')
        self.log = pathlib.Path(self.folder.name, 'console.txt')
        with self.log.open('wb') as log:
            self.process = subprocess.Popen([firefox, '--headless', '--marionette', '--no-remote', '--profile', self.folder.name],
                                            stdin=subprocess.DEVNULL, stdout=log, stderr=log)
        try:
            self.begin(port)
        except BaseException:
            self.process.kill()
            self.process.wait()
            self.folder.cleanup()
            raise

    def begin(self, port):
        for _ in range(600):
            with contextlib.suppress(OSError):
                self.socket = socket.create_connection(('127.0.0.1', port))
                break
            time.sleep(0.2)
        self.socket.settimeout(180)
        self.rest, self.last, self.asked = b'', 0, set()
        self.message()
        self.call('WebDriver:NewSession', capabilities={'alwaysMatch': {'acceptInsecureCerts': True}})
        self.call('WebDriver:SetTimeouts', script=180000)

    def message(self):
        while b':' not in self.rest:
            self.rest += self.read()
        length, _, self.rest = self.rest.partition(b':')
        while len(self.rest) < int(length):
            self.rest += self.read()
        text, self.rest = self.rest[:int(length)], self.rest[int(length):]
        return json.loads(text)

    def read(self):
        try:
            got = self.socket.recv(1 << 20)
        except TimeoutError:
            raise EOFError('the browser does not answer') from None
        if not got:
            raise EOFError('the browser ended')
        return got

    def call(self, method, **params):
        self.last += 1
        text = json.dumps([0, self.last, method, params]).encode()
        self.socket.sendall(str(len(text)).encode() + b':' + text)
        _, _, error, result = self.message()
        if error:
            raise RuntimeError(f'{method}: {error["error"]}: {error["message"]}'[:800])
        return result

    def open(self, address):
        self.note()
        self.call('WebDriver:Navigate', url=address)

    def value(self, expression):
        script = f'const done = arguments[0]; (async () => ({expression}))().then((v) => done({{ v }}), (e) => done({{ e: String(e) }}));'
        got = self.call('WebDriver:ExecuteAsyncScript', script=script, args=[], sandbox=None)['value']
        if 'e' in got:
            raise RuntimeError(got['e'])
        return got.get('v')

    def press(self, key):
        actions = [{'type': kind, 'value': KEYS[key]} for kind in ('keyDown', 'keyUp')]
        self.call('WebDriver:PerformActions', actions=[{'type': 'key', 'id': 'keys', 'actions': actions}])

    def look(self, width, height, is_dark=False):
        del is_dark  # Marionette cannot choose it.
        self.call('WebDriver:SetWindowRect', width=width, height=height)

    def picture(self):
        return base64.b64decode(self.call('WebDriver:TakeScreenshot', full=True)['value'])

    def complaints(self):
        """The errors and warnings of the page's console. The browser's own scripts write there too."""
        lines = self.log.read_text(errors='replace').splitlines()
        lines = [line for line in lines if 'RSLoader' not in line]
        return [line for line in lines if line.startswith(('JavaScript error: file', 'JavaScript error: blob', 'console.error', 'console.warn')) or 'Security-Policy' in line]

    def note(self):
        with contextlib.suppress(RuntimeError):
            self.asked.update(self.value('performance.getEntriesByType("resource").map(({ name }) => name)'))

    def sent(self):
        """The addresses of requests that left the page."""
        self.note()
        return [address for address in self.asked if not address.startswith(('file:', 'data:', 'blob:', 'about:', 'chrome:', 'resource:'))]

    def close(self):
        with contextlib.suppress(Exception):
            self.call('Marionette:Quit', flags=['eForceQuit'])
        try:
            self.process.wait(timeout=30)
        except subprocess.TimeoutExpired:
            self.process.kill()
            self.process.wait()
        self.folder.cleanup()
