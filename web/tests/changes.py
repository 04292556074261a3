"""What a visitor of the page does to change a set: greatest budgets that are tried, scales, and the speed."""

BOTH_FULL = ''.join(f'[[task]]\nname = "{name}"\nlevel = "high"\nperiod = 4\nlow = 1\nhigh = 4\n' for name in 'ab')
ONE_LOW = '[[task]]\nname = "a"\nlevel = "low"\nperiod = 10\nlow = 1\n'


def band(page):
    """Where the shade of the scales begins, in percent of its length, how many pixels it has, and whether it is inside."""
    return page.value('''(() => { const [whole, part] = [".band", ".holds"].map((one) => document.querySelector(one).getBoundingClientRect());
        return [Math.round(100 * (part.left - whole.left - 1) / (whole.width - 2)), Math.round(part.width), part.right <= whole.right]; })()''')


def changes(page):
    page.choose('Budgets that may grow')
    rows = page.value('[...document.querySelectorAll("#margins tbody tr")].map((row) => row.innerText)')
    heads = page.value('[...document.querySelectorAll("#margins th")].map((head) => head.innerText)')
    page.wants('each column has a head of its own', heads == ['task', 'level', 'period', 'low', 'low at most', 'high', 'high at most'], heads)
    page.sees('a processor to spare', 'margins', 'A slower processor would do, too, down to 0.870157 times the speed.')
    page.wants('the greatest budgets', rows == ['ctl\thigh\t10\t2\t4\t6\t8', 'log\tlow\t10\t5\t6\t–\t–'], rows)
    page.value('document.querySelector("[data-change=\'0 high\']").focus()')
    page.click('[data-change="0 high"]')
    page.wants('the focus stays beside the table', page.value('document.activeElement.closest("#margins") !== null'))
    page.wants('a click tries the number', 'high = 8' in page.file('tasks'), page.file('tasks'))
    page.sees('and it is admitted', 'check', 'Admitted')
    page.sees('how budgets are rounded', 'stretch', 'rounded down to whole ticks')
    page.choose('Not admitted')
    page.sees('why it is not admitted', 'check', 'Plain EDF needs U_LL + U_HH ≤ 1, and this sum is 3/2.')
    page.sees('why EDF-VD does not do', 'check', 'x = U_HL/(1 − U_LL) = 1/2, and this sum is 5/4.')
    page.click('#check button')
    page.wants('the button leads to its tab, and is gone', page.value('[document.activeElement.id, document.querySelector("#check button")]') == ['tab-fit', None])
    rows = page.value('[...document.querySelectorAll("#margins tbody tr")].map((row) => row.innerText)')
    page.wants('what would do', rows == ['tap\tlow\t2\t1\tnone\t–\t–', 'arm\thigh\t4\t1\tnone\t4\t3'], rows)
    page.sees('no scale', 'scales', 'No scale holds. One holds exactly if the test admits the set, so there is none to choose here yet.')
    page.wants('and no slider', page.value('document.querySelector("#scales input, #scales button")') is None)
    page.sees('the speed that would do', 'margins', 'a faster processor would do, of 1.183013 times the speed.')
    page.click('[data-change="1 high"]')
    page.sees('mended by a click', 'check', 'Admitted: EDF with virtual deadlines, x = 1/2')
    page.sees('no processor to spare', 'margins', 'No slower processor would do.')
    page.sees('one scale alone', 'scales', 'The scale 1/2 alone holds; it is marked.')
    page.wants('its mark', band(page) == [50, 4, True], band(page))
    page.type('tasks', '[[task]]\nname = "a"\nlevel = "low"\nperiod = 2\nlow = 1\n[[task]]\nname = "b"\nlevel = "high"\nperiod = 2\nlow = 1\nhigh = 1\n')
    page.sees('the greatest scale alone', 'scales', 'With virtual deadlines, the scale 1/1 alone would hold; it is marked.')
    page.wants('its mark inside', band(page)[1:] == [4, True], band(page))
    page.type('tasks', ONE_LOW)
    page.sees('all scales', 'scales', 'With virtual deadlines, each scale above 0 and up to 1/1 would hold; they are shaded.')
    page.wants('0 is no scale to use', page.value('[...document.querySelectorAll("#scales button")].map((one) => one.innerText)') == ['Use the greatest, 1/1'])
    page.type('tasks', '[[task]]\nname = "a"\nlevel = "low"\nperiod = 2\nlow = 1\n[[task]]\nname = "b"\nlevel = "high"\nperiod = 4\nlow = 3\nhigh = 4\n')
    page.sees('a scale above 1', 'check', 'EDF-VD needs a scale x = U_HL/(1 − U_LL) of at most 1, and this is 3/2.')
    page.choose('Two processors')
    page.sees('no capacity left by low tasks', 'check', 'EDF-VD needs U_LL below 1.')
    page.type('tasks', BOTH_FULL)
    page.sees('no budget does alone', 'margins', 'no budget would do if only this one changes. With the budgets as they are, a faster processor would do, of 2.000000 times the speed.')
    page.wants('and there is no table', page.value('document.querySelector("#margins table")') is None)
    page.choose('Budgets that may grow')
    page.sees('the scales that hold', 'scales', 'The scales from 2/5 to 4/5 hold')
    page.wants('the shade', band(page)[0] == 40 and abs(band(page)[1] - page.value('0.4 * document.querySelector(".band").clientWidth')) < 1, band(page))
    slide(page, 600)
    page.sees('a scale that was chosen', 'check', 'x = 3/5')
    slide(page, 300)
    page.sees('a scale that does not hold', 'check', 'scale 3/10 does not hold')
    page.wants('which is no good news', page.value('[...document.querySelectorAll("#check > *")].map((card) => [card.classList[0], card.innerText.includes("does not hold")])')
               == [['bad', True], ['good', False]])
    page.sees('and its words', 'scales', 'x = 3/10 = 0.3000 does not hold')
    page.value('[...document.querySelectorAll("#scales button")].pop().click()')
    page.settle()
    page.wants('no scale of its own', 'scale' not in page.file('tasks'), page.file('tasks'))


def slide(page, part):
    page.value(f'''(() => {{ const it = document.getElementById("slider"); it.value = {part}; it.dispatchEvent(new Event("input")); it.dispatchEvent(new Event("change")); }})()''')
    page.settle()


def scales(page):
    """The loads are 1/10, 2/10 and 3/10: plain EDF needs 4/10 of at most 1. The least scale is 2/(10 - 1), and the greatest is 1."""
    page.click('#tab-fit')
    page.type('tasks', f'{ONE_LOW}[[task]]\nname = "b"\nlevel = "high"\nperiod = 10\nlow = 2\nhigh = 3\n')
    page.sees('a set under plain EDF', 'check', 'Admitted: plain EDF')
    page.sees('needs no scale', 'scales', 'The rule of this set is plain EDF, which needs no scale. With virtual deadlines, the scales from 2/9 to 1/1 would hold; they are shaded.')
    page.sees('and has none', 'scales', 'No scale is in use: plain EDF has no x.')
    page.wants('no scale is said to hold', 'x = 1/1' not in page.text('scales'), page.text('scales'))
    page.wants('for a reader of the screen too', page.value('document.getElementById("slider").getAttribute("aria-valuetext")') == 'No scale is in use: plain EDF has no x.')
    slide(page, 500)
    page.sees('a scale that is chosen', 'scales', 'x = 1/2 = 0.5000 holds')
    page.sees('gives virtual deadlines', 'check', 'Admitted: EDF with virtual deadlines, x = 1/2')
    slide(page, 200)
    page.sees('below the least one', 'scales', 'x = 1/5 = 0.2000 does not hold')
    page.sees('the rule is the one of the test', 'scales', 'The rule of this set is plain EDF')
    page.value('[...document.querySelectorAll("#scales button")].pop().click()')
    page.settle()
    page.sees('no scale again', 'scales', 'No scale is in use')
    page.type('tasks', f'version = 2\nscale = [1, 2]\n{BOTH_FULL}')
    page.sees('a scale of its own that does not hold', 'scales', 'The file’s own scale 1/2 does not hold either.')
    page.click('#scales button')
    page.wants('is taken out', page.file('tasks') == f'version = 2\n{BOTH_FULL}', page.file('tasks'))


def refused_numbers(page):
    """A worker in whose place another one answers that the proved code refused the numbers."""
    page.choose('Budgets that may grow')
    page.value('''void (window.Worker = class extends Worker {
        set onmessage(action) {
            super.onmessage = ({ data }) => {
                if (data.answer?.budgets) data.answer = { budgets: { status: 4 }, scales: { status: 4 }, speed: { status: 4 } };
                action({ data });
            };
        }
    })''')
    page.click('#cancel')
    page.type('tasks', BOTH_FULL)
    for ident in 'margins', 'scales':
        page.sees(f'a sentence in place of the {ident}', ident, 'The proved code refuses the numbers that this page reads from the task file (status 4), so it tries no other values.')
    page.sees('the rest is there', 'stretch', 'The test admits the set')
    page.open(page.address)
