#!/usr/bin/env python3
"""Whether the models of examples/ and of the pages have the answers that are written beside them.

    docs/examples.py             compares the comments of examples/ with the rows of crates/hkdd/src/tests.rt, which are proved and run
    docs/examples.py PROGRAM     also runs a built program, as crates/hkdd/out/hkdd, on each of these files and on each model of README.md
                                 and docs/, and compares what it prints

The first comment of a model ends with a line `# Prints:` and the lines of its answer. Its row has the text of the whole file, and
then that answer. A model of a page is a block of text that begins, comments aside, with a header; what it prints is the next indented
block. Ends with status 1 where two differ, or where a model has no row or no answer."""
import os
import re
import subprocess
import sys
import tempfile

TOP = os.path.dirname(os.path.dirname(os.path.abspath(__file__)))
EXAMPLES = os.path.join(TOP, 'examples')
ROWS = os.path.join(TOP, 'crates', 'hkdd', 'src', 'tests.rt')
LITERAL = r'b?"(?:[^"\\]|\\.|\\\n)*"'
ESCAPES = {'n': '\n', 't': '\t', 'r': '\r', '0': '\0', '\\': '\\', '"': '"', "'": "'"}


def value_of(literal):
    """The text that a literal of the code stands for."""
    inner = literal[literal.index('"') + 1:-1]
    inner = re.sub(r'\\\n\s*', '', inner)
    return re.sub(r'\\(.)', lambda found: ESCAPES[found.group(1)], inner)


def printed(text):
    """What the first comment of a model says that it prints, or None."""
    found = re.search(r'^# Prints:\n((?:#   .*\n)+)', text, re.M)
    return found and ''.join(line[4:] + '\n' for line in found.group(1).splitlines())


def rows():
    """The texts of the rows in their order, where a constant counts where it is used."""
    with open(ROWS, encoding='utf-8') as file:
        text = re.sub(r'^\s*//.*$', '', file.read(), flags=re.M)
    named = re.compile(r'const (\w+): &(?:str|\[u8\]) =\s*(' + LITERAL + r');', re.S)
    constants = {name: value_of(literal) for name, literal in named.findall(text)}
    text = named.sub('', text)
    found = []
    for word in re.findall(LITERAL + r'|\b[A-Z][A-Z0-9_]*\b', text, re.S):
        if word.endswith('"'):
            found.append(value_of(word))
        elif word in constants:
            found.append(constants[word])
    return found


def models_of(page):
    """The models of a page, each with what it is said to print, or None."""
    with open(page, encoding='utf-8') as file:
        pieces = re.split(r'^```(?:text)?\n', file.read(), flags=re.M)
    found = []
    for at in range(1, len(pieces) - 1, 2):
        first = re.sub(r'^\s*(#.*)?\n', '', pieces[at], flags=re.M)
        if first.startswith('hkm 1\n'):
            says = re.search(r'^((?:    .*\n)+)', pieces[at + 1], re.M)
            found.append((pieces[at], says and re.sub(r'^    ', '', says.group(1), flags=re.M)))
    return found


def faults_of(program, page):
    """What the program prints otherwise than a page says, and how many models the page has."""
    faults, models = [], models_of(page)
    for model, says in models:
        with tempfile.NamedTemporaryFile('w', encoding='utf-8') as file:
            file.write(model)
            file.flush()
            run = subprocess.run([program, 'solve', file.name], capture_output=True, text=True, check=False)
        if run.stdout != says:
            faults.append(f'a model prints {run.stdout!r} and not {says!r}')
    return faults, len(models)


def main():
    texts, bad = rows(), 0
    for name in sorted(os.listdir(EXAMPLES)):
        path = os.path.join(EXAMPLES, name)
        with open(path, encoding='utf-8') as file:
            model = file.read()
        says = printed(model)
        answers = [texts[at + 1] for at in range(len(texts) - 1) if texts[at] == model]
        faults = []
        if says is None:
            faults.append('its comment says nothing of what it prints')
        if not answers:
            faults.append('there is no row of it')
        if any(answer != says for answer in answers):
            faults.append('its row has another answer')
        if len(sys.argv) > 1:
            run = subprocess.run([sys.argv[1], 'solve', path], capture_output=True, text=True, check=False)
            if run.returncode != 0 or run.stdout != says:
                faults.append(f'the program ends with {run.returncode} and prints {run.stdout!r}')
        print(f'{name}: ' + ('; '.join(faults) or 'good'))
        bad += bool(faults)
    pages = ['README.md'] + [f'docs/{name}' for name in sorted(os.listdir(os.path.join(TOP, 'docs'))) if name.endswith('.md')]
    for page in pages if len(sys.argv) > 1 else []:
        faults, models = faults_of(sys.argv[1], os.path.join(TOP, page))
        if models:
            print(f'{page}, {models} models: ' + ('; '.join(faults) or 'good'))
        bad += bool(faults)
    return 1 if bad else 0


if __name__ == '__main__':
    sys.exit(main())
