# SPDX-License-Identifier: MIT
"""scripts/translate/rustc/module.py MODULE.ll TO.ll: for scripts/dist, changes the module that rustc made of
the Rust package before LLVM's passes.

- core's functions that end a program in a panic do nothing: no call of theirs is reached, which Rattle proves of
  the same text. They are those of PANICS, and each is printed with the number of its calls. Another function that isn't
  defined, and isn't among NEEDED, is an error.
- Each function returns, which Rattle proves too: a call of one whose result nobody needs can go.
- Functions have the names of the sources, and are made a part of their callers, or not, as translator/names.py has it.
- Whether there are vectors is left to whoever compiles the C."""
import re
import sys
from pathlib import Path

sys.dont_write_bytecode = True
sys.path.insert(0, str(Path(__file__).resolve().parents[2]))
from translate.rustc.debug import GLOBAL, Debug, named_functions
from translate.translator.names import marked

# By the end of their mangled names.
PANICS = {'9panicking5panic': 'panic', '9panicking9panic_fmt': 'panic_fmt',
          '9panicking18panic_bounds_check': 'panic_bounds_check', '5index16slice_index_fail': 'slice_index_fail',
          '20copy_from_slice_impl17len_mismatch_fail': 'len_mismatch_fail'}
# What is linked from core itself, and what stays behind where nothing unwinds.
NEEDED = ['3str8converts9from_utf8']
UNUSED = ['rust_eh_personality']
VECTORS = r'acpi_bytes\.sum\.has_vectors'


def ends_with(symbol, words):
    return next((word for word in words if symbol.endswith(word)), None)


def without_panics(text):
    """The module with panics that do nothing, and how many calls each had."""
    calls = {}
    for line, symbol in re.findall(rf'(?m)^(declare .*({GLOBAL})\(.*)$', text):
        panic = ends_with(symbol, PANICS)
        if symbol.startswith('@llvm.') or ends_with(symbol, NEEDED + UNUSED):
            continue
        if not panic:
            sys.exit(f'rustc/module.py: {symbol} is neither defined nor a panic that is known')
        calls[PANICS[panic]] = len(re.findall(rf'call .*{re.escape(symbol)}\(', text))
        head = re.sub(r' unnamed_addr.*', ' unnamed_addr', line).replace('declare', 'define internal', 1)
        text = text.replace(line, f'{head} alwaysinline {{\n  unreachable\n}}')
    if set(calls) != set(PANICS.values()):
        missing = set(PANICS.values()) - set(calls)
        sys.exit(f'rustc/module.py: these panics are in its table and not in the module: {missing}')
    return text, calls


def returning(text):
    """The module in which each function that it defines returns."""
    groups = set(re.findall(r'(?m)^define .* #(\d+) ', text))
    return re.sub(r'(?m)^attributes #(\d+) = \{ ',
                  lambda found: found[0] + ('mustprogress willreturn ' if found[1] in groups else ''), text)


def asked_for_vectors(text):
    """The module in which has_vectors is anyone's."""
    text, count = re.subn(rf'(?m)^define [^\n]*(@{VECTORS})\((?s:.*?)^\}}$',
                          r'declare zeroext i1 \1() nounwind willreturn memory(none)', text)
    return text if count == 1 else sys.exit('rustc/module.py: there is no has_vectors')


def main():
    source, to = sys.argv[1:]
    with open(source, encoding='utf-8') as file:
        text = file.read()
    text, calls = without_panics(text)
    names = named_functions(text, Debug(text))
    text = re.sub(GLOBAL, lambda found: names.get(found[0], found[0]), text)
    with open(to, 'w', encoding='utf-8') as file:
        file.write(asked_for_vectors(marked(returning(text))))
    for name, count in sorted(calls.items()):
        print(f'{name}: {count} calls that are not reached')


main()
