"""What visitors of the page do: schedules, files to save, traces and why they are illegal, what may change, examples and links."""

import json

from changes import changes, ONE_LOW, refused_numbers, scales

# Two tasks that need all ticks each, and take turns: neither job has its two ticks at tick 2.
TWO_LOW = ''.join(f'[[task]]\nname = "{name}"\nlevel = "low"\nperiod = 2\nlow = 2\n' for name in 'ab')
BOTH_LATE = 'event,tick,task,job,how\nrelease,0,a,1,kept\nrelease,0,b,1,kept\ntick,0,a,1,more\ntick,1,b,1,more\ntick,2,a,1,stop\ntick,3,b,1,stop\n'


# What examples/overrun comes to in 12 ticks: ctl overruns with its second tick and is done with its sixth, and log 1 is discarded.
OVERRUN = 'event,tick,length,task,job,how\nrelease,0,,ctl,1,kept\nrelease,0,,log,1,kept\ntick,0,1,ctl,1,more\ntick,1,1,ctl,1,over\n' \
    'tick,2,3,ctl,1,more\ntick,5,1,ctl,1,done\nidle,6,4,,,\nrelease,10,,log,2,kept\ntick,10,2,log,2,more\n'


# The words that describe all of the drawing of the schedule.
DESCRIBED = 'document.getElementById(document.querySelector("#run-drawing svg").getAttribute("aria-describedby")).textContent'


def said(page, name, kind):
    """The words of the first element of this kind in the drawing of this name."""
    return page.value(f'document.querySelector("#{name}-drawing .canvas {kind} title")?.textContent')


def drawn(page, name, *kinds):
    """How many elements of each kind the drawing of this name has."""
    return [page.value(f'document.querySelectorAll("#{name}-drawing .canvas {kind}").length') for kind in kinds]


def schedules(page):
    page.choose('An overrun')
    page.sees('why it is admitted', 'check', 'Admitted: EDF with virtual deadlines, x = 2/5')
    page.sees('what x is', 'check', 'its release + x·period')
    page.sees('what a load is', 'check', 'high tasks, low budgets')
    page.wants('two slices within the low budget, two beyond it, an overrun, high mode', drawn(page, 'run', 'rect.high', 'rect.beyond', 'path.over', 'rect.mode') == [2, 2, 1, 1])
    page.wants('the virtual deadline of ctl 1', said(page, 'run', 'path.virtual') == 'ctl 1, virtual deadline 4, which counts in low mode')
    page.wants('the same without seeing it', 'ctl 1, virtual deadline 4, which counts in low mode. log 1, released at 0.' in page.value(DESCRIBED), page.value(DESCRIBED))
    page.sees('until when high mode lasts', 'schedule', 'high mode: from an overrun to the end of the first idle tick')
    page.sees('what a virtual deadline looks like', 'schedule', 'virtual deadline: counts in low mode')
    page.sees('the words of a report', 'report', 'kept: released and not dropped')
    page.type('work', 'task,release,need\nctl,0,6\nlog,0,0\n')
    page.sees('a wrong line', 'run', 'work file line 3: need is 0')
    page.wants('its mark', page.value('document.querySelector("#work .mark").style.top') == f'{8 + 2 * 21}px')
    page.type('work', 'task,release,need\nctl,0,1\n')
    page.sees('an edit', 'report', 'ctl\t1\t1\t0\t0\t1\t0\t1\t1')
    page.type('ticks', '20')
    page.type('work', 'task,release,need\nctl,0,1\nlog,0,9\nctl,10,9\n')
    page.sees('jobs that are stopped, of two tasks', 'run', '20 ticks, no job is late. Not every job got all its ticks: 2 stopped')
    page.type('ticks', '0')
    page.sees('ticks out of range', 'run', 'Ticks is a number from 1 to 1,000,000.')
    page.type('ticks', '20')
    page.click('#fill')
    page.wants('a work file that is filled in', page.file('work') == 'task,release,need\nctl,0,2\nlog,0,5\nctl,10,2\nlog,10,5\n', page.file('work'))
    page.click('#fill-overrun')
    page.wants('with an overrun', drawn(page, 'run', 'path.over') == [1])
    tasks = page.file('tasks')
    plain = tasks.replace('high = 6', 'high = 3').replace('low = 5', 'low = 1')
    page.type('tasks', plain)
    page.sees('a set under plain EDF', 'check', 'Plain EDF has no modes: a high job may use its high budget, no job overruns')
    page.wants('and no overrun', drawn(page, 'run', 'path.over', 'rect.mode', 'path.virtual') == [0, 0, 0])
    page.type('tasks', f'version = 2\nscale = [1, 2]\n{plain}')
    page.wants('an overrun under a scale of its own', drawn(page, 'run', 'path.over') == [1])
    page.wants('and virtual deadlines', said(page, 'run', 'path.virtual') == 'ctl 1, virtual deadline 5, which counts in low mode')
    page.type('tasks', tasks)
    page.value('document.getElementById("chart-part").open = true')
    page.until('the chart', 'document.getElementById("chart").innerText.includes("(mode) LLHHHHHLLLLLLLLLLLLL")')
    page.sees('the letters of a chart', 'chart', 'O its low budget is used up: an overrun')
    page.value('document.getElementById("chart-part").open = false')
    page.click('#to-judge')
    page.until('taken to the judge', 'document.getElementById("verdict").innerText.includes("legal late 0")')
    page.settle()


def mistakes(page):
    """A visitor who has no other page: each error message of a task file or a work file says what to do."""
    page.choose('An overrun')
    page.sees('what the numbers of a task are', 'tasks-hint', 'the time from a release to its deadline')
    page.type('tasks', ONE_LOW.replace('low = 1', 'wcet = 1'))
    page.sees('a wrong key', 'check', 'task file: task 1: unknown key wcet')
    page.sees('and the right ones', 'check', 'A task has a name, a level, a period and the budget low.')
    page.type('tasks', ONE_LOW.replace('"a"', '"a b"'))
    page.sees('a name with a space', 'check', 'A name has 1 to 32 characters: the letters a to z and A to Z, digits, _ and -. It has no space.')
    page.type('tasks', ONE_LOW)
    page.sees('the work of another set', 'run', 'work file line 2: unknown task')
    page.sees('and how to have one for this set', 'run', '“Fill in” writes a work file for its tasks.')
    page.click('#fill')
    page.sees('which is done by a click', 'run', '12 ticks, no job is late')
    page.wants('and the sentence is gone', 'Fill in' not in page.text('run'), page.text('run'))
    page.click('#tab-judge')
    page.type('trace', 'hello\n')
    page.sees('no trace', 'verdict', 'trace line 1: header is of no trace version')
    page.sees('and how one begins', 'verdict', 'The first line is event,tick,task,job,how, or event,tick,length,task,job,how')
    page.click('#tab-demand')
    page.type('demands', 'task,period,deadline,budget\na,10,12,3\n')
    page.sees('a deadline that is too long', 'demanded', 'A deadline is counted from the release, and is at most the period.')
    page.choose('An overrun')


def long_schedules(page):
    """A job each ten ticks: its tick is the only one of ten, so the 241st begins at 2400."""
    page.click('#tab-schedule')
    page.type('tasks', ONE_LOW)
    page.type('ticks', '3000')
    page.click('#fill')
    page.until('the window of a long schedule', 'document.querySelector("#run-drawing [name=end]").value === "2400"')
    page.value('document.getElementById("chart-part").open = true')
    page.until('a long chart', 'document.getElementById("chart").innerText.includes("a      D.........D.........D")')
    page.type('ticks', '20001')
    page.until('a chart that would be too long', 'document.getElementById("chart").innerText === "The chart is shown up to 20,000 ticks."')
    page.value('document.getElementById("chart-part").open = false')
    page.type('ticks', '1000000')
    page.value('document.getElementById("fill").click()')
    page.wants('more jobs than the page fills in', 'That would be more than 50,000 jobs: fill in fewer ticks.' in page.value('document.body.innerText'))


def saved(page, where):
    """The name and the text of the file that this button saves."""
    page.value('window.saved = null')
    page.click(where)
    page.until('a file is saved', 'window.saved !== null')
    return page.value('window.saved')


def downloads(page):
    page.value('''(() => {
        const [blobs, make] = [new Map(), URL.createObjectURL];
        URL.createObjectURL = (blob) => { const address = make.call(URL, blob); blobs.set(address, blob); return address; };
        HTMLAnchorElement.prototype.click = function () { blobs.get(this.href).text().then((text) => { window.saved = [this.download, text]; }); };
    })()''')
    page.choose('An overrun')
    page.wants('the trace as a file', (found := saved(page, '#trace-text button')) == ['trace.csv', OVERRUN], found)
    page.wants('the task file', (found := saved(page, '#tasks + .tools button:last-child')) == ['tasks.toml', page.file('tasks')], found)
    name, text = saved(page, '#run-drawing [name=save]')
    page.value(f'void (window.read = new DOMParser().parseFromString({json.dumps(text)}, "image/svg+xml").documentElement)')
    page.wants('the drawing as a file', [name, page.value('window.read.namespaceURI')] == ['schedule.svg', 'http://www.w3.org/2000/svg'], name)
    looks = '[...{0}.querySelectorAll("rect.high, rect.beyond, rect.low")].map((one) => one.getAttribute("fill") ?? getComputedStyle(one).fill)'
    page.wants('its colours', page.value(looks.format('window.read')) == page.value(looks.format('document.querySelector("#run-drawing svg")')))
    page.wants('its size', page.value('["viewBox", "width"].every((name) => window.read.getAttribute(name) === document.querySelector("#run-drawing svg").getAttribute(name))'))
    page.open(page.address)


def traces(page):
    page.click('#tab-judge')
    page.drop('trace', '"event,tick,task,job,how\\r\\nidle,0,,,\\r\\nidle,2,,,\\r\\n"')
    page.sees('a dropped file', 'verdict', 'trace line 3: wrong tick')
    page.sees('which tick is right', 'verdict', 'Ticks are numbered from 0 on without a gap')
    page.wants('the mark of its line', page.value('document.querySelector("#trace .mark").style.top') == f'{8 + 2 * 21}px')
    page.drop('trace', '"time,event,task\\n0,run,ctl\\n10,release,ctl\\n9,finish,\\n"')
    page.sees('a recording that is refused', 'verdict', 'This recording makes no trace: line 4: its time is before that of line 3.')
    page.wants('the field for the tick', not page.value('document.getElementById("tick-part").hidden'))
    page.sees('which events there are', 'tick-part', 'release, drop and end of a job; and finish, with no task.')
    page.type('tick', '0')
    page.sees('no tick', 'verdict', 'A tick is a number of microseconds above 0')
    page.type('tick', '1000')
    page.choose('A legal trace')
    page.wants('no field for a tick', page.value('document.getElementById("tick-part").hidden'))
    page.type('scale', '2/1')
    page.sees('a scale that is none', 'verdict', 'A scale is p/q')
    page.type('scale', '')
    page.drop('trace', '"x".repeat(100), new Uint8Array(134217728)')
    page.sees('a file that is too long', 'judge', '')
    page.wants('its sentence', 'dropped.csv has 134,217,828 bytes. This page takes at most 134,217,728 here.' in page.value('document.body.innerText'))
    page.sees('what was there stays', 'verdict', 'legal late 0')


def reasons(page):
    """The traces of examples/judged with another last row, over ctl (10, 2, 6) and log (10, 5), under the scale 2/5."""
    page.choose('An illegal trace')
    page.sees('the row and its line', 'verdict', 'Row 5 is line 6: the header in line 1 is not a row.')
    page.sees('the word of the verdict', 'verdict', 'not_pending: only a pending job may have a tick')
    page.sees('why its job is not pending', 'verdict', 'Here log 1 was discarded at 2 by an overrun.')
    begin = 'event,tick,task,job,how\nrelease,0,ctl,1,kept\nrelease,0,log,1,kept\n'
    page.type('trace', f'{begin}tick,0,log,1,more\n')
    page.sees('a smaller key', 'verdict', 'ctl 1 comes first, in low mode: the virtual deadline of ctl 1 is 4, and the deadline of log 1 is 10.')
    page.type('scale', '1/2')
    page.sees('keys under another scale', 'verdict', 'the virtual deadline of ctl 1 is 5, and the deadline of log 1 is 10.')
    page.type('scale', '1/1')
    page.sees('equal keys under another scale', 'verdict', 'legal late 0')
    page.type('trace', f'{begin}idle,0,,,\n')
    page.sees('an idle tick', 'verdict', 'ctl 1 is pending: it was released at 0')
    page.type('scale', '')
    page.type('trace', f'{begin}tick,0,ctl,1,more\ntick,1,ctl,1,more\n')
    page.sees('the words that fit', 'verdict', 'So the last word is over, or done if the job is done with this tick.')
    page.choose('A trace that takes too much')
    page.sees('a row within a line', 'verdict', 'Row 4 is in line 4, which stands for the rows 3 to 8')
    page.choose('A legal trace')
    page.type('trace', f'{begin}tick,0,ctl,1,more\ntick,1,ctl,1,over\ntick,2,ctl,1,done\n')
    page.sees('a discarded job of a legal trace', 'verdict', 'no job is late. Not every job got all its ticks: 1 discarded.')
    page.type('scale', '1/1')
    page.type('tasks', TWO_LOW)
    page.type('trace', BOTH_LATE)
    page.sees('two late jobs', 'verdict', '2 jobs are late: a 1 is the first.')
    page.choose('A job late under the scale 1/1')
    page.wants('a late job is marked', drawn(page, 'judge', 'path.late', 'path.deadline') == [1, 1])
    page.sees('and named', 'verdict', 'one job is late: ctl 1.')
    page.type('scale', '1/2')
    page.type('trace', f'{begin}tick,0,ctl,1,done\ntick,1,log,1,more\ntick,2,log,1,more\ntick,3,log,1,more\ntick,4,log,1,more\ntick,5,log,1,done\n')
    page.wants('a virtual deadline under a scale of its own', said(page, 'judge', 'path.virtual') == 'ctl 1, virtual deadline 5, which counts in low mode')


def judged(page):
    """What the words and the line numbers on the judge's tab are."""
    page.choose('An illegal trace')
    page.sees('the words of a release', 'trace-hint', 'A release is kept · dropped (a low task’s, in high mode).')
    page.sees('the words of a tick', 'trace-hint', 'A tick ends with more (its job goes on) · done (its job is done) · stop (not done, and its last budget is used up)'
              ' · over (not done, and its low budget is used up: an overrun, so high mode begins).')
    page.wants('the outline of the row and the cross of the discarded job', page.value(APART), page.value(APART))
    page.choose('A recording of one’s own')
    page.sees('the line of the trace', 'verdict', 'Row 7 is in line 8 of the trace that the recording makes, which stands for the rows 7 to 8')
    page.sees('the line of the recording', 'verdict', 'by 110 us at most, the first in line 5 of the recording; moved back')


# Whether the outline of the row at fault, and the line to it, are to the right of the cross of the discarded job, with a pixel between them.
APART = '''(() => {
    const box = (kind) => document.querySelector(`#judge-drawing .canvas ${kind}`).getBBox();
    const end = box("path.discarded").x + box("path.discarded").width + 1;
    return box("rect.illegal").x > end && box("path.illegal").x > end;
})()'''

# The bar at the foot of the window, and whether the answer can be seen.
BAR = '(({ hidden, textContent }) => hidden ? "" : textContent)(document.getElementById("unseen"))'
IN_VIEW = '(({ top, bottom }) => top >= 0 && bottom <= innerHeight)(document.getElementById("run").getBoundingClientRect())'


def unseen(page):
    """An answer that changes out of sight is said at the foot of the window, until it is seen."""
    page.choose('An overrun')
    page.wants('no bar beside an answer that is seen', page.value(BAR) == '', page.value(BAR))
    page.browser.look(420, 850)
    page.type('work', 'task,release,need\nctl,0,1\n')
    page.wants('an answer below', page.value(BAR) == 'Answer below: 12 ticks, no job is late', page.value(BAR))
    page.type('work', 'task,release,need\nctl,0,9\n')
    page.wants('another one', page.value(BAR) == 'Answer below: 12 ticks, no job is late. Not every job got all its ticks: 1 stopped', page.value(BAR))
    page.type('work', 'task,release,need\nctl,0,0\n')
    page.wants('an error', page.value(BAR) == 'Answer below: work file line 2: need is 0', page.value(BAR))
    page.wants('in its colour', page.value('document.getElementById("unseen").classList.contains("bad")'))
    page.wants('within the window', page.value(IN_VIEW.replace('run', 'unseen')))
    page.value('document.getElementById("unseen").click()')
    page.until('it leads to the answer', IN_VIEW)
    page.until('and is gone', f'{BAR} === ""')
    page.wants('the focus is there', page.value('document.activeElement.id') == 'run')
    page.value('scrollTo(0, 0)')
    page.wants('what was seen is not said again', page.value(BAR) == '', page.value(BAR))
    page.type('ticks', '13')
    page.value('scrollTo(0, scrollY + document.getElementById("run").getBoundingClientRect().top)')
    page.until('an answer that is scrolled to', f'{BAR} === ""')
    page.value('scrollTo(0, 0)')
    page.type('ticks', '14')
    page.wants('the answer of the tab', page.value(BAR) == 'Answer below: work file line 2: need is 0', page.value(BAR))
    page.wants('and none when another tab is chosen', page.value(f'(document.getElementById("tab-judge").click(), {BAR})') == '')
    page.settle()
    page.choose('Budgets that may grow')
    page.value('document.getElementById("slider").scrollIntoView()')
    page.value('((slider) => { slider.value = 500; slider.dispatchEvent(new Event("change")); })(document.getElementById("slider"))')
    page.until('an answer above', f'{BAR} === "Answer above: Admitted: EDF with virtual deadlines, x\\u00a0=\\u00a01/2"')
    page.browser.look(1300, 900)
    page.choose('An overrun')


def leftovers(page):
    """An example leaves nothing of the one before it."""
    page.choose('A flight computer')
    page.choose('An illegal trace')
    page.click('#tab-schedule')
    page.wants('ticks of its own', page.value('document.getElementById("ticks").value') == '20')
    page.wants('work of its own', page.file('work') == 'task,release,need\nctl,0,2\nlog,0,5\nctl,10,2\nlog,10,5\n', page.file('work'))
    page.choose('An overrun')
    page.click('#tab-judge')
    page.wants('no trace of another example', page.file('trace') == '', page.file('trace'))


def hovered(page):
    """A tab under the pointer does not look as the chosen one."""
    if not hasattr(page.browser, 'point'):
        return
    page.browser.point(*page.value('(({ x, y, width, height }) => [x + width / 2, y + height / 2])(document.getElementById("tab-fit").getBoundingClientRect())'))
    page.until('the pointer is on a tab', 'document.getElementById("tab-fit").matches(":hover")')
    page.wants('its line stays', page.value('getComputedStyle(document.getElementById("tab-fit")).borderBottomColor') == 'rgba(0, 0, 0, 0)')


def links(page):
    page.choose('An illegal trace')
    page.click('#link')
    link = page.value('document.getElementById("link-text").value')
    trace = page.file('trace')
    page.open(link)
    page.sees('a page from a link', 'verdict', 'illegal row 5 not_pending')
    page.wants('the trace of a link', page.file('trace') == trace)
    page.choose('A job late under the scale 1/1')
    page.click('#link')
    page.open(page.value('document.getElementById("link-text").value'))
    page.sees('the scale of a link', 'verdict', 'legal late 1 first ctl 1')
    page.open(f'{page.address}#1.broken')
    page.sees('a damaged link', 'state', 'The link that opened this page is damaged')
    page.sees('and an example', 'check', 'Admitted')


USES = schedules, mistakes, long_schedules, downloads, traces, reasons, judged, unseen, changes, scales, refused_numbers, leftovers, hovered, links
