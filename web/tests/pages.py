"""Uses the page in a headless browser as a visitor does: each example, the uses of uses.py, hostile words, the keyboard, long questions.
Nothing may be sent, and the console must stay silent. With FOLDER, pictures go there.

usage: pages.py chromium|firefox ADDRESS [FOLDER]
       ADDRESS is that of the page, as file:///home/you/edfvd/web/out/edfvd.html
"""

import base64
import json
import pathlib
import sys
import time

sys.path.insert(0, str(pathlib.Path(__file__).resolve().parent))
ROOT = pathlib.Path(__file__).resolve().parent.parent.parent
sys.path.insert(0, str(ROOT / 'tools'))
from usage import WrongWords, ends  # noqa: E402
from uses import USES  # noqa: E402
from visitor import Page  # noqa: E402

# The element that each example is seen by, and words of it.
SEEN = {
    'An overrun': ('run', '12 ticks, no job is late. Not every job got all its ticks: 1 discarded'),
    'A flight computer': ('run', '20,000 ticks, no job is late'),
    'A certified scale': ('check', 'x = 2/5'),
    'A certified scale, outgrown': ('check', 'scale 2/5 does not hold'),
    'A legal trace': ('verdict', 'legal late 0'),
    'An illegal trace': ('verdict', 'illegal row 5 not_pending'),
    'A job late under the scale 1/1': ('verdict', 'legal late 1 first ctl 1'),
    'A recording of one’s own': ('verdict', 'The recording as a trace: a tick is 1000 us, of one 115 us lost at most'),
    'A trace that takes too much': ('verdict', 'illegal row 4 wrong_how'),
    'Not admitted': ('check', 'Not admitted by the test'),
    'A wrong task file': ('check', 'task file: task 1: unknown key deadline'),
    'Budgets that may grow': ('stretch', 'up to 149 %'),
    'Two processors': ('partition', 'processor 1 tap arm\nprocessor 2 log'),
    'Deadlines within periods': ('demanded', 'schedulable, demand checked to'),
    'A deadline that may be missed': ('demanded', 'not schedulable: demand 4 in length 3'),
}

HOSTILE = '<img src=x onerror=window.broken=1>'


def examples(page):
    page.wants('each example is tried', page.value('[...document.querySelectorAll("#example option")].map((one) => one.text)') == list(SEEN))
    for name, (ident, words) in SEEN.items():
        page.choose(name)
        page.sees(name, ident, words)
        page.picture(''.join(letter if letter.isalnum() else '_' for letter in name.lower()))


def link_of(page, state):
    return f'{page.address}#1.{base64.urlsafe_b64encode(json.dumps(state).encode()).decode().rstrip("=")}'


def hostile(page):
    page.open(link_of(page, {'tab': 'judge', 'tasks': f'[[task]]\nname = "{HOSTILE}"\nlevel = "low"\nperiod = 2\nlow = 1\n', 'scale': HOSTILE,
                             'trace': f'event,tick,task,job,how\nrelease,0,"{HOSTILE}",1,kept\n'}))
    page.wants('words of a task file in its message', 'bad name' in page.text('check'), page.text('check'))
    page.type('tasks', f'"{HOSTILE}" = 1\n')
    page.sees('words in an error message', 'check', 'task file: unknown key <img?src=x?onerror=window.broken')
    page.open(link_of(page, {'tab': 'judge', 'tasks': '[[task]]\nname = "a"\nlevel = "low"\nperiod = 2\nlow = 1\n', 'trace': f'time,event,task\n0,"{HOSTILE}",a\n'}))
    page.sees('words of a recording', 'verdict', HOSTILE)
    page.drop('trace', '"x".repeat(134217729)', f'{HOSTILE}.csv')
    for tab in 'schedule', 'fit', 'demand':
        page.open(link_of(page, {'tab': tab, 'tasks': HOSTILE, 'work': HOSTILE, 'demands': HOSTILE, 'ticks': HOSTILE, 'processors': HOSTILE}))
    page.wants('no hostile word became an element', page.value('document.images.length === 0 && window.broken === undefined'))


def keyboard(page):
    page.choose('An overrun')
    page.value('document.getElementById("tab-schedule").focus()')
    page.press('ArrowRight')
    page.wants('an arrow key chooses the next tab', page.value('document.querySelector("main").dataset.tab') == 'judge')
    page.press('End')
    page.wants('End chooses the last tab', page.value('document.querySelector("main").dataset.tab') == 'demand')
    page.press('Home')
    page.type('ticks', '12')
    seen = set()
    for _ in range(60):
        page.browser.press('Tab')
        seen.add(page.value('document.activeElement.id || document.activeElement.className || document.activeElement.name || document.activeElement.parentElement.id || document.activeElement.tagName'))
    wanted = {'example', 'link', 'tasks', 'work', 'ticks', 'fill', 'fill-overrun', 'begin', 'end', 'in', 'save', 'canvas', 'to-judge', 'report-part'}
    page.wants('Tab reaches each part', wanted <= seen, sorted(wanted - seen))
    page.value('document.querySelector("#run-drawing .canvas").focus()')
    page.press('+')
    page.until('plus shows fewer ticks', 'document.querySelector("#run-drawing [name=end]").value === "6"')
    page.press('ArrowRight')
    page.until('an arrow key moves the drawing', 'document.querySelector("#run-drawing [name=begin]").value === "3"')
    page.press('End')
    page.until('End shows the last ticks', '["begin", "end"].map((name) => document.querySelector(`#run-drawing [name=${name}]`).value).join() === "6,12"')
    page.press('ArrowRight')
    page.until('no tick after the last', '["begin", "end"].map((name) => document.querySelector(`#run-drawing [name=${name}]`).value).join() === "6,12"')
    page.choose('Budgets that may grow')
    page.value('document.querySelector("#slider").focus()')
    page.press('ArrowRight')
    page.sees('an arrow key moves the slider', 'check', 'x = 401/1000')
    page.wants('which keeps the focus', page.value('document.activeElement.id') == 'slider')


def long_questions(page):
    page.value('document.getElementById("tab-schedule").click()')
    tasks = ''.join(f'[[task]]\nname = "t{n}"\nlevel = "{"high" if n % 2 else "low"}"\nperiod = {period}\nlow = {period // 20}\n' + (f'high = {period // 10}\n' if n % 2 else '')
                    for n, period in enumerate([200, 250, 400, 500, 800, 1000, 2000, 2500]))
    page.type('tasks', tasks)
    page.type('ticks', '1000000')
    page.value('document.getElementById("fill-overrun").click()')
    begin = time.time()
    page.settle()
    took = time.time() - begin
    page.sees('a million ticks', 'run', '1,000,000 ticks, no job is late')
    print(f'pages: a run of a million ticks was answered and drawn after {took:.1f} s; the page says: {page.text("run")}', flush=True)
    page.value('document.querySelector("#run-drawing [name=all]").click()')
    page.until('all of it is drawn', 'document.querySelector("#run-drawing [name=end]").value === "1000000"')
    page.click('#to-judge')
    page.until('a long trace is judged', 'document.getElementById("verdict").innerText.includes("legal late 0")')
    page.until('and drawn', 'document.querySelectorAll("#judge-drawing rect").length > 5')
    page.settle()
    page.value('document.getElementById("tab-schedule").click()')
    page.settle()
    page.value('''(() => {
        const tasks = [...Array(128).keys()];
        const set = (selector, text) => {
            const it = document.querySelector(selector);
            it.value = text;
            it.dispatchEvent(new Event("input", { bubbles: true }));
        };
        set("#tasks textarea", tasks.map((n) => `[[task]]\\nname = "t${n}"\\nlevel = "low"\\nperiod = 128\\nlow = 1\\n`).join(""));
        set("#work textarea", "task,release,need\\n" + [...Array(7000).keys()].map((k) => tasks.map((n) => `t${n},${128 * k},1\\n`).join("")).join(""));
        set("#ticks", "1000000");
    })()''')
    begin, was_busy = time.time(), False
    while time.time() - begin < 60 and not was_busy:
        was_busy = page.value('!document.getElementById("busy").hidden')
        time.sleep(0.02)
    page.wants('a long question shows that it is under way', was_busy)
    page.value('document.getElementById("cancel").click()')
    page.settle()
    page.sees('a cancelled question', 'run', 'Cancelled.')
    page.choose('An overrun')
    page.sees('and then an answer again', 'run', '12 ticks, no job is late')


# Whether each word of a table that is seen stands on one line.
WHOLE_WORDS = '''[...document.querySelectorAll("th, td")].filter((cell) => cell.offsetParent && cell.firstChild?.nodeType === Node.TEXT_NODE).every((cell) => {
    const text = cell.firstChild;
    return [...text.data.matchAll(/[^ ]+/g)].every(({ 0: word, index }) => {
        const range = document.createRange();
        range.setStart(text, index);
        range.setEnd(text, index + word.length);
        return range.getClientRects().length === 1;
    });
})'''


def looks(page):
    for name in ('An overrun', 'An illegal trace', 'Budgets that may grow'):
        for width, is_dark in ((400, False), (400, True), (1300, True)):
            page.browser.look(width, 850, is_dark)
            page.choose(name)
            time.sleep(0.3)
            page.wants(f'no word of a table is broken at {width}', page.value(WHOLE_WORDS))
            page.wants(f'no sideways scrolling at {width}', page.value('document.documentElement.scrollWidth <= window.innerWidth'))
            page.picture(f'{name.lower().replace(" ", "_")}_{width}{"_dark" if is_dark else ""}')
    page.browser.look(1300, 900)


# What the page may not do, and the part of its policy that forbids it. Firefox reports the last two in another way.
FORBIDDEN = {
    'fetch("http://127.0.0.1:9/").catch(() => {})': 'connect-src',
    'new Image().src = "http://127.0.0.1:9/x.png"': 'img-src',
    'document.body.append(Object.assign(document.createElement("script"), { textContent: "window.broken = 1" }))': 'script-src-elem',
    'document.head.append(Object.assign(document.createElement("link"), { rel: "stylesheet", href: "http://127.0.0.1:9/x.css" }))': 'style-src-elem',
    'document.body.append(Object.assign(document.createElement("iframe"), { src: "http://127.0.0.1:9/" }))': 'frame-src',
    'document.body.append(Object.assign(document.createElement("form"), { action: "http://127.0.0.1:9/" })); document.forms[0].submit()': 'form-action',
}


def policy(page, browser):
    for action, part in list(FORBIDDEN.items())[:None if browser == 'chromium' else 4]:
        found = page.value(f'''new Promise((done) => {{
            addEventListener("securitypolicyviolation", (event) => done(event.effectiveDirective), {{ once: true }});
            setTimeout(() => done("allowed"), 5000);
            {action};
        }})''')
        page.wants(f'the policy forbids {action}', found == part, found)


def main(words):
    if len(words) not in (2, 3) or words[0] not in ('chromium', 'firefox'):
        raise WrongWords
    if words[0] == 'firefox':
        from firefox import Firefox as Browser
    else:
        from browser import Browser
    browser = Browser()
    try:
        page = Page(browser, words[1], words[2] if len(words) == 3 else '')
        for part in examples, *USES, hostile, keyboard, long_questions, looks:
            part(page)
        complaints, sent = browser.complaints(), browser.sent()
        page.wants('a console without complaints', not complaints, complaints)
        page.wants('nothing is sent', not sent, sent)
        policy(page, words[0])
    finally:
        browser.close()
    print(f'pages in {words[0]}: {page.tried} tried, {page.bad} failed')
    return 1 if page.bad else 0


if __name__ == '__main__':
    ends(main, __doc__)
