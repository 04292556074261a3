"""Checks that the pages of docs agree with the files that they describe. It needs no built program.

- MISTAKES.md names each message of crates/replies/specs.
- FORMATS.md shows the files that it names as they are.
- PROMISES.md names clauses that the calls of the named files have.
- DEFINITIONS.md names definitions by their lines, has the totals of definitions.py, and leads to each definition that the
  headline reaches, before its part on all others; those have a comment in the file that it names.
- DEADLINE-PROOF.md leads to each lemma of demand_law that it names, by its line.
- README.md has the total of the headline and of what says that nothing is refused without reason.
- The links of all pages lead to a file, and to a heading of it where they name one.
- overrun.svg is what svg.py draws of the overrun.
- CITATION.cff has the newest version of CHANGELOG.md.
- TESTING.md has the numbers of edits.
- An edit of the gate or a test shows each public call that no other crate calls (public_calls.py).
- The clauses that no page names are those of unnamed_clauses.txt (unnamed_clauses.py).

usage: pages.py [mend]
       with the word, writes the right line numbers and totals into DEFINITIONS.md, DEADLINE-PROOF.md and README.md, and draws
       overrun.svg again
"""

import pathlib
import re

import with_tools
import definitions
import model
import public_calls
import reading
import svg
import unnamed_clauses
from usage import WrongWords, ends

ROOT = pathlib.Path(__file__).resolve().parent.parent

# Messages that never come from a file.
NEVER = {'a number is 0'}


# The words of the messages: the texts of the definitions, without `task file: `, and blanks and colons at their ends.
def messages():
    for page in ('RowLines', 'TaskLines', 'Refusal'):
        text = (ROOT / f'crates/replies/specs/{page}.antt').read_text(encoding='utf-8')
        for words in re.findall(r'codes "((?:[^"\\]|\\.)*)"', text):
            words = words.replace('\\n', '').removeprefix('task file: ').strip(' :,')
            if words and words not in NEVER:
                yield words


def messages_not_named():
    page = (ROOT / 'docs/MISTAKES.md').read_text(encoding='utf-8')
    return [f'MISTAKES.md does not name: {words}' for words in messages() if words not in page]


# The blocks of FORMATS.md after the name of a file that are not that file.
def samples_that_differ():
    page = (ROOT / 'docs/FORMATS.md').read_text(encoding='utf-8')
    samples = re.findall(r'`(examples/[\w/.]+)`:\n\n```\w*\n(.*?)```', page, re.DOTALL)
    return [f'FORMATS.md does not show {name} as it is' for name, text in samples if (ROOT / name).read_text(
        encoding='utf-8') != text] + ([] if samples else ['FORMATS.md shows no files'])


# A link to a clause, as `call: clause`, or to a definition or a lemma, by its line.
LINK = re.compile(r'\[`([\w-]+)(?:: (\w+))?`\]\(\.\./(crates/[^#)]+)#L(\d+)\)')
TOTALS = re.compile(r'(checks/definitions\.py` follows.*?```\n)(.*?)(\n```)', re.DOTALL)


# The head of a lemma, or of a definition, in a file of proofs.
LEMMA = re.compile(r'^(pub )?(?:(?:abbrev|record|pub) )*([\w-]+) [:(]')


# The number of the line of a clause of a call, or of a definition or a lemma, or None.
def line_of(name, clause, path):
    place = ROOT / path
    lines = place.read_text(encoding='utf-8').split('\n') if place.is_file() else []
    if clause is None:
        pattern, group = (LEMMA, 2) if '/proofs/' in path else (definitions.HEAD, 1)
        heads = ((number, pattern.match(line)) for number, line in enumerate(lines, 1))
        return next((number for number, head in heads if head and head[group] == name), None)
    within = False
    for number, line in enumerate(lines, 1):
        function = re.match(r'^\s*(?:pub )?fn (\w+)', line)
        within = function[1] == name if function else within
        if within and f'ensures {clause} {{' in line:
            return number
    return None


# The page with links to the right lines.
def links_mended(page):
    def link(match):
        name, clause, path, _ = match.groups()
        return re.sub(r'#L\d+', f'#L{line_of(name, clause, path)}', match[0])
    return LINK.sub(link, page)


# The page with the lines and totals that are right.
def lines_mended(page):
    told = [definitions.total_line(label, definitions.read([label])) for label in ('headline', 'right_text', 'complete', 'tested', 'answer', 'outcome')]
    told.append(definitions.total_line(' and '.join(definitions.PROMISE), definitions.read(definitions.PROMISE)))
    told.append(definitions.total_line('all clauses', definitions.read(definitions.clauses())))
    return TOTALS.sub(lambda match: match[1] + '\n'.join(told) + match[3], links_mended(page))


# The lines of a page that its mended form has otherwise, and its links that lead nowhere.
def line_faults_of(name, mended):
    page = (ROOT / 'docs' / name).read_text(encoding='utf-8')
    pairs = zip(page.split('\n'), mended(page).split('\n'))
    yield from (f'{name} has {old!r}, and it should be {new!r}' for old, new in pairs if old != new)
    yield from (f'{name}: {match[0]} is not there' for match in LINK.finditer(page) if line_of(*match.groups()[:3]) is None)
    if not LINK.search(page):
        yield f'{name} has no links to lines'


def line_faults():
    page = (ROOT / 'docs/DEFINITIONS.md').read_text(encoding='utf-8')
    yield from line_faults_of('DEFINITIONS.md', lines_mended)
    if not TOTALS.search(page):
        yield 'DEFINITIONS.md has no totals'


# The names of the lemmas of demand_law that other files may cite.
def lemmas():
    for path in sorted((ROOT / 'crates/demand_law/proofs').rglob('*.antt')):
        heads = map(LEMMA.match, path.read_text(encoding='utf-8').split('\n'))
        yield from (head[2] for head in heads if head and head[1])


def lemma_faults():
    page = (ROOT / 'docs/DEADLINE-PROOF.md').read_text(encoding='utf-8')
    yield from line_faults_of('DEADLINE-PROOF.md', links_mended)
    linked = {match[1] for match in LINK.finditer(page)}
    named = set(re.findall(r'`([\w-]+)`', page))
    yield from (f'DEADLINE-PROOF.md names {lemma}, and does not lead to it' for lemma in sorted(named & set(lemmas()) - linked))


# The columns of a claim in PROMISES.md: what is claimed, its clauses, and the files of the calls.
CLAIM = re.compile(r'^\| (.+) \| (.+) \| (.+) \|$', re.MULTILINE)
COMMANDS = 'the crates of the commands'


# The sources that the last column of a claim names. A name without a folder is of the folder before it.
def sources(column):
    folder, found = ROOT, []
    for name in re.split('[;,] ', column):
        if name == COMMANDS:
            found += (ROOT / 'crates').glob('*_commands/src/**/*.rt')
            continue
        place = (ROOT / 'crates' / name) if '/' in name else folder / name
        folder = place.parent
        found += place.rglob('*.rt') if place.is_dir() else [place]
    return found


# The clauses of each function of some sources, by the function's name.
def clauses_of(paths):
    found, function = {}, None
    for line in (line for path in paths for line in path.read_text(encoding='utf-8').split('\n')):
        head = re.match(r'\s*(?:pub(?:\(crate\))? )?fn (\w+)', line)
        function = head[1] if head else function
        labels = found.setdefault(function, set())
        labels.update(re.findall(r'^\s*ensures (\w+) \{', line))
    return found


# What the clauses of a claim name and its files do not have.
def lost_clauses(named, paths):
    functions, text = clauses_of(paths), '\n'.join(path.read_text(encoding='utf-8') for path in paths)
    labels = set().union(*functions.values())
    for words in re.findall('`([^`]+)`', re.sub(r'\([^)]*\)', '', named)):
        call, _, rest = words.partition(': ')
        name = call.split('::')[-1]
        is_type = re.search(rf'^\s*(?:pub )?(?:struct|enum|trait|impl)\b.*\b{name}\b', text, re.MULTILINE)
        if name not in functions and not is_type and (rest or name not in labels):
            yield call
        yield from (f'{call}: {label}' for label in rest.split(', ') if rest and label not in functions.get(name, set()))


def promise_faults():
    page = (ROOT / 'docs/PROMISES.md').read_text(encoding='utf-8')
    files, count = '', 0
    for _, named, column in CLAIM.findall(page):
        if named == 'clause' or '`' not in named:
            continue
        files, count = (files if column == '"' else column), count + 1
        absent = [path for path in sources(files) if not path.is_file()]
        if absent or not files:
            yield f'PROMISES.md: {named} is of {files}, which is no source'
            continue
        yield from (f'PROMISES.md: {lost} is not in {files}' for lost in lost_clauses(named, sources(files)))
    if count == 0:
        yield 'PROMISES.md has no claims'


# ---- Links ----

PAGES = ['*.md', 'docs/*.md', 'crates/*/README.md', 'bench/*.md', 'examples/**/README.md', 'tools/**/README.md', 'checks/README.md']


# A page without the blocks that are set as they stand.
def without_blocks(text):
    return re.sub(r'^```.*?^```', '', text, flags=re.DOTALL | re.MULTILINE)


# The anchors of a page: its headings in small letters, with a hyphen for each blank, and without other signs.
def anchors(page):
    text = without_blocks(page.read_text(encoding='utf-8'))
    heads = re.findall('^#+ (.*)$', text, re.MULTILINE)
    return {re.sub(r'[^\w -]', '', head.lower()).replace(' ', '-') for head in heads}


def link_faults():
    for page in (page for pattern in PAGES for page in sorted(ROOT.glob(pattern))):
        text = without_blocks(page.read_text(encoding='utf-8'))
        for target in re.findall(r'\]\(([^)\s]+)\)', text):
            name, _, anchor = target.partition('#')
            place = page.parent / name if name else page
            is_lost = anchor and place.suffix == '.md' and anchor not in anchors(place) if place.exists() else True
            if '://' not in target and is_lost:
                yield f'{page.relative_to(ROOT)}: {target} leads nowhere'


HEADLINE = re.compile(r'[\d,]+ lines of definitions and [\d,]+ of types')


# README.md with the lines that the clauses of the promise reach.
def readme_mended(page):
    (_, lines, _), (_, types, _) = definitions.totals(definitions.read(definitions.PROMISE)).values()
    return HEADLINE.sub(f'{lines:,} lines of definitions and {types:,} of types', page)


def readme_faults():
    page = (ROOT / 'README.md').read_text(encoding='utf-8')
    if not HEADLINE.search(page):
        return ['README.md does not tell how many lines of definitions the headline reaches']
    return [] if page == readme_mended(page) else ['README.md tells another number of lines of definitions']


# The definitions that the headline reaches and the parts in reading order do not name.
def definitions_faults():
    page = without_blocks((ROOT / 'docs/DEFINITIONS.md').read_text(encoding='utf-8').split('## 4.')[0])
    named = set(re.findall(r'`([^`]+)`', page))
    return [f'DEFINITIONS.md does not lead to {name} of {path.relative_to(definitions.CRATES)}'
            for path, name in definitions.read(['headline']).reached if name not in named]


# The rows of the table of all other definitions: a crate, and the names by the file.
OTHERS = re.compile(r'^\|[^|]*\| (\w+) \| (.+) \|$', re.MULTILINE)


# The definitions of that table which their files do not have, or have without a comment above.
def others_faults():
    rows = OTHERS.findall((ROOT / 'docs/DEFINITIONS.md').read_text(encoding='utf-8').split('## 4.')[1])
    if len(rows) < 2:
        yield 'DEFINITIONS.md has no table of other definitions'
    for crate, cell in (row for row in rows if row[0] != 'crate'):
        for file, names in (part.split(': ') for part in cell.split('; ')):
            place = ROOT / 'crates' / crate / (file if file.endswith('.rt') else f'specs/{file}.antt')
            lines = place.read_text(encoding='utf-8').split('\n') if place.is_file() else []
            explained = {head[1] for above, line in zip(lines, lines[1:]) if re.match(r'\s*(--|///?) ', above)
                         for head in [re.match(r'\s*(?:(?:abbrev|unfoldable|pub|record|data|ghost) )+([\w-]+)', line)] if head}
            yield from (f'DEFINITIONS.md: {name} of {place.relative_to(ROOT)} is not there, or has no comment'
                        for name in re.findall('`([^`]+)`', names) if name not in explained)


def overrun_drawn(_page):
    """The picture of the twelve ticks of the overrun, whatever the page has."""
    folder = ROOT / 'examples/overrun'
    tasks = reading.tasks_in(folder / 'tasks.toml')
    return model.lines(svg.picture(tasks, reading.runs_in(tasks, folder / 'run.txt'), 0, 12))


def picture_faults():
    page = (ROOT / 'docs/overrun.svg').read_text(encoding='utf-8')
    return [] if page == overrun_drawn(page) else ['overrun.svg is not what svg.py draws']


def citation_faults():
    """The version of CITATION.cff is that of the first heading of CHANGELOG.md which is one: changes since it have none."""
    cited = re.search(r'^version: (.*)$', (ROOT / 'CITATION.cff').read_text(encoding='utf-8'), re.MULTILINE)[1]
    newest = re.search(r'^## ([0-9.]+)', (ROOT / 'CHANGELOG.md').read_text(encoding='utf-8'), re.MULTILINE)[1]
    return [] if cited == newest else [f'CITATION.cff has version {cited}, and CHANGELOG.md {newest}']


def edit_faults():
    """TESTING.md has the number of edits that the gate tries, of all edits, and of those that the gate leaves out."""
    tried, others = (sum(1 for _ in (ROOT / 'crates').glob(f'*/{folder}/*.edit')) for folder in ('must-fail', 'wrong-bodies'))
    page = ' '.join((ROOT / 'docs/TESTING.md').read_text(encoding='utf-8').split())
    numbers = (f'only {tried} of {tried + others} edits', f'the other {others} edits')
    return [f'TESTING.md does not have: {words}' for words in numbers if words not in page]


CHECKS = [messages_not_named, samples_that_differ, promise_faults, line_faults, lemma_faults, readme_faults, definitions_faults, others_faults, link_faults, picture_faults,
          citation_faults, edit_faults, public_calls.faults, unnamed_clauses.faults]
MENDED = [('docs/DEFINITIONS.md', lines_mended), ('docs/DEADLINE-PROOF.md', links_mended), ('README.md', readme_mended), ('docs/overrun.svg', overrun_drawn)]


def main(words):
    if words not in ([], ['mend']):
        raise WrongWords
    if words:
        for name, mended in MENDED:
            page = ROOT / name
            page.write_text(mended(page.read_text(encoding='utf-8')), encoding='utf-8')
    faults = [fault for check in CHECKS for fault in check()]
    for fault in faults:
        print(f'pages: {fault}')
    print(f'pages: {len(faults)} faults')
    return 1 if faults else 0


if __name__ == '__main__':
    ends(main, __doc__)
