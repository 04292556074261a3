"""A visitor of the page: what a test does with it, and what it sees. It is given a browser, browser.py's or firefox.py's."""

import json
import pathlib
import time

# Waits until the answers are those of what is seen.
SETTLED = '''new Promise((done) => {
    const begin = performance.now();
    const { dataset } = document.body;
    const wait = () => {
        const isAnswered = dataset.answered !== undefined && dataset.answered === dataset.asked;
        if (isAnswered || performance.now() - begin > 120000) done(isAnswered);
        else setTimeout(wait, 20);
    };
    setTimeout(wait, 20);
})'''


class Page:
    def __init__(self, browser, address, folder):
        self.browser, self.address, self.folder, self.bad, self.tried = browser, address, folder, 0, 0
        self.browser.look(1300, 900)
        self.open(address)

    def open(self, address):
        self.browser.open('about:blank')
        self.browser.open(address)
        for _ in range(300):
            if self.value('!!document.querySelector("#example option")'):
                break
            time.sleep(0.1)
        self.settle()

    def value(self, expression):
        return self.browser.value(expression)

    def settle(self):
        self.wants('an answer within two minutes', self.value(SETTLED))

    def until(self, what, expression):
        """Waits up to two minutes for what the expression says."""
        end = time.time() + 120
        while not (is_so := self.value(expression)) and time.time() < end:
            time.sleep(0.1)
        self.wants(what, is_so, expression)

    def text(self, ident):
        return self.value(f'document.getElementById("{ident}").innerText.replaceAll("\\u00a0", " ")')

    def file(self, name):
        return self.value(f'document.querySelector("#{name} textarea").value')

    def wants(self, what, is_so, found=''):
        self.tried += 1
        if not is_so:
            self.bad += 1
            print(f'FAILED: {what}: {found!r}', flush=True)

    def sees(self, what, ident, words):
        found = self.text(ident)
        self.wants(what, words in found, found)

    def choose(self, name):
        self.value(f'''(() => {{ const list = document.getElementById("example");
            list.value = [...list.options].find((it) => it.text === {json.dumps(name)}).value;
            list.dispatchEvent(new Event("change")); }})()''')
        self.settle()

    def type(self, ident, text):
        self.value(f'''(() => {{ const it = document.querySelector("#{ident} textarea") ?? document.getElementById("{ident}");
            it.value = {json.dumps(text)}; it.dispatchEvent(new Event("input", {{ bubbles: true }})); }})()''')
        self.settle()

    def click(self, where):
        self.value(f'document.querySelector({json.dumps(where)}).click()')
        self.settle()

    def drop(self, ident, content, name='dropped.csv'):
        asked = self.value('document.body.dataset.asked')
        self.value(f'''(() => {{ const data = new DataTransfer(); data.items.add(new File([{content}], {json.dumps(name)}));
            document.getElementById("{ident}").dispatchEvent(new DragEvent("drop", {{ dataTransfer: data, bubbles: true, cancelable: true }})); }})()''')
        self.until('a dropped file is taken or refused', f'document.body.dataset.asked !== "{asked}" || !!document.querySelector("[role=alert]:not([hidden])")')
        self.settle()

    def press(self, *keys):
        for key in keys:
            self.browser.press(key)
            time.sleep(0.05)
        self.settle()

    def picture(self, name):
        data = self.browser.picture()
        self.wants(f'a picture of {name}', len(data) > 8000, len(data))
        if self.folder:
            pathlib.Path(self.folder, f'{name}.png').write_bytes(data)
