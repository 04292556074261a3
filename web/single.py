"""Writes the page as one file, which needs no server and no network. Scripts, style and modules are inside, and a content security policy
names each of them by its hash, so that the page loads nothing else and sends nothing.

usage: single.py MODULE.wasm SETS.wasm EXAMPLES.js > FILE.html
"""

import base64
import hashlib
import pathlib
import re
import sys

sys.path.insert(0, str(pathlib.Path(__file__).resolve().parent.parent / 'tools'))
from usage import WrongWords, ends  # noqa: E402

HERE = pathlib.Path(__file__).resolve().parent
IMPORT = re.compile(r"^import \{[^}]*\} from '\./([a-z_]+\.js)';\n", re.M)
NAMED = re.compile(r'^(?:export )?(?:async )?(?:const|let|class|function\*?) ([A-Za-z_$][\w$]*)', re.M)


class Unexpected(Exception):
    """A script that cannot stand inside the page."""


def in_order(name, sources, seen):
    """The names of this script and of all that it imports, each after those that it imports."""
    if name not in seen:
        seen[name] = None
        for used in IMPORT.findall(sources(name)):
            in_order(used, sources, seen)
        seen[name] = seen.pop(name)
    return list(seen)


def joined(first, sources):
    """A script with all that it imports, as one."""
    texts, names = [], {}
    for name in in_order(first, sources, {}):
        text = sources(name)
        for known in NAMED.findall(text) + re.findall(r'^const \[([^\]]*)\]', text, re.M):
            for one in filter(None, re.split('[, ]+', known)):
                if one in names:
                    raise Unexpected(f'{name} and {names[one]} both have {one}')
                names[one] = name
        texts.append(re.sub(r'^export ', '', IMPORT.sub('', text), flags=re.M))
    text = '\n'.join(texts)
    if re.search(r'</script|<!--', text, re.I) or re.search(r'^(import|export)\b', text, re.M):
        raise Unexpected(f'{first} has words that cannot stand inside the page')
    return f"'use strict';\n{{\n{text}}}\n"


def hash_of(text):
    return f"'sha256-{base64.b64encode(hashlib.sha256(text.encode()).digest()).decode()}'"


def replaced(page, old, new):
    if page.count(old) != 1:
        raise Unexpected(f'index.html has no single {old!r}')
    return page.replace(old, new)


def page_of(module, sets, examples):
    """The page with these modules and examples."""
    def sources(name):
        return examples if name == 'examples.js' else (HERE / 'src' / name).read_text()
    style = (HERE / 'style.css').read_text()
    script = '\n' + joined('page.js', sources)
    worker = joined('worker.js', sources)
    policy = '; '.join(["default-src 'none'", f"script-src {hash_of(script)} 'wasm-unsafe-eval'", f'style-src {hash_of(style)}', 'worker-src blob:',
                        'img-src data:', "base-uri 'none'", "form-action 'none'"])
    page = (HERE / 'index.html').read_text()
    page = replaced(page, '<meta charset="utf-8">\n', f'<meta charset="utf-8">\n<meta http-equiv="Content-Security-Policy" content="{policy}">\n')
    page = replaced(page, '<link rel="stylesheet" href="style.css">\n', f'<style>{style}</style>\n')
    page = replaced(page, '<script type="module" src="page.js"></script>\n', '')
    return replaced(page, '</body>\n', f'<script type="text/plain" id="module">{base64.b64encode(module).decode()}</script>\n'
                                       f'<script type="text/plain" id="sets">{base64.b64encode(sets).decode()}</script>\n'
                                       f'<script type="text/plain" id="worker">\n{worker}</script>\n'
                                       f'<script type="module">{script}</script>\n</body>\n')


def main(words):
    if len(words) != 3:
        raise WrongWords
    try:
        module, sets, examples = (pathlib.Path(word).read_bytes() for word in words)
        page = page_of(module, sets, examples.decode())
    except Unexpected as why:
        print(f'single.py: {why}', file=sys.stderr)
        return 1
    sys.stdout.write(page)
    return 0


if __name__ == '__main__':
    ends(main, __doc__)
