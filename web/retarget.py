"""Compiles the LLVM module that rattle made of a static library for x86-64 once more, for WebAssembly with 64-bit memory.

Of the module's text three things change: its target, the attributes of functions that are for x86-64 alone, and that the named functions
are exported. What the functions do stays as it is: sizes, places in memory and numbers are those of a machine of 64 bits, little-endian,
which both targets are. The flags are those that the kit's rattle gives clang for wasm64.

usage: retarget.py CLANG MODULE.bc OBJECT.o EXPORT..
"""

import pathlib
import re
import subprocess
import sys

sys.path.insert(0, str(pathlib.Path(__file__).resolve().parent.parent / 'tools'))
from usage import WrongWords, ends  # noqa: E402

TEXT = '--target=x86_64-unknown-linux-gnu -x ir -S -emit-llvm -Xclang -disable-llvm-passes --no-default-config'.split()
OBJECT = ('--target=wasm64-unknown-unknown -mcpu=lime1 -mllvm -expand-div-rem-bits=64 -mllvm -expand-fp-convert-bits=64 -ffunction-sections '
          '-fdata-sections -mllvm -trap-unreachable -mllvm -disable-machine-licm -mllvm -disable-postra-machine-licm -mllvm '
          '-sink-common-insts=false --no-default-config -no-canonical-prefixes -fintegrated-cc1 -fno-crash-diagnostics -Werror '
          '-Wno-override-module -O3 -c -x ir').split()
# What rattle writes at each function for x86-64, and what it writes for wasm64.
OLD = re.compile(r' "probe-stack"="inline-asm" "stack-probe-size"="\d+" "target-cpu"="x86-64"')
NEW = ' "no-builtin-bcmp" "no-builtin-memcmp" "no-builtin-strlen"'


class Unexpected(Exception):
    """The module has something that this script does not know."""


def retargeted(text, exports):
    lines, left = [], set(exports)
    for line in text.splitlines():
        if line.startswith(('target datalayout = ', 'target triple = ')):
            continue
        if line.startswith('attributes '):
            line = OLD.sub(NEW, line)
            if 'target-' in line or 'probe' in line:
                raise Unexpected(line)
        defined = re.match(r'define (?!internal ).*?@(\w+)\(.*( #\d+) \{$', line)
        if line.startswith('define ') and not line.startswith('define internal ') and not defined:
            raise Unexpected(line)
        if defined and defined[1] in left:
            left.remove(defined[1])
            line = f'{line[:defined.start(2)]} "wasm-export-name"="{defined[1]}"{line[defined.start(2):]}'
        if re.search(r'@llvm\.x86\.|\basm\b|^@\w+ = .*\bptr\b', line):
            raise Unexpected(line)
        lines.append(line)
    if left:
        raise Unexpected(f'the module does not define {sorted(left)}')
    return '\n'.join(lines) + '\n'


def main(words):
    if len(words) < 4:
        raise WrongWords
    clang, module, target, *exports = words
    text = subprocess.run([clang, *TEXT, module, '-o', '-'], check=True, stdout=subprocess.PIPE, text=True).stdout
    try:
        text = retargeted(text, exports)
    except Unexpected as line:
        sys.exit(f'retarget.py: not as expected: {line}')
    subprocess.run([clang, *OBJECT, '-', '-o', target], check=True, input=text, text=True)
    return 0


if __name__ == '__main__':
    ends(main, __doc__)
