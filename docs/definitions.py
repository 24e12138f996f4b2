#!/usr/bin/env python3
"""What a reader has to believe: the definitions behind a contract, found by the imports of the files.

    docs/definitions.py              writes two lists into docs/definitions.md, each between its marks: what stands behind `run` of
                                     crates/hkdd, and the files of specs/inside/
    docs/definitions.py --check      ends with status 1 where a list in docs/definitions.md is another one, where a table of the page
                                     says that a definition stands in a file in which it doesn't stand, where the page explains a
                                     definition behind `run` nowhere, or where an exported item reaches one of specs/inside/
    docs/definitions.py --unreached  prints the definitions of specs/, outside of specs/inside/, that no exported item reaches

A word in a definition leads to what it names: by the file's own definitions, its `use` lines, and the `pub use` lines of a
Lib.antt. `specs.declared.MODULE.TYPE` leads to a type or a constant of src/, and a signature to the types and traits in it. Of the
code only types, traits and contracts are read, and no bodies. A variable that is named as a definition counts as that definition,
so the list may have one too many. So that it has none too few, an import that leads nowhere ends the script."""
import os
import re
import sys
from functools import lru_cache

TOP = os.path.dirname(os.path.dirname(os.path.abspath(__file__)))
CRATES = os.path.join(TOP, 'crates')
PAGE = os.path.join(TOP, 'docs', 'definitions.md')
MARKS = {name: (f'<!-- {name}: made by docs/definitions.py -->', f'<!-- end of {name} -->') for name in ('inside', 'list')}
START = ('hkdd', 'run', 'run')

WORD = re.compile(r'(?<![\w.-])([^\W\d][\w-]*)(?:\.([^\W\d][\w-]*))?')
SPEC_USE = re.compile(r'^(pub )?use ([\w.]+?)(?:\.\{([^}]*)\})?(?: as (\w+))?$', re.M)
GHOST_USE = re.compile(r'^ *ghost use ([\w.]+?)(?:\.\{([^}]*)\})?(?: as (\w+))?;$', re.M)
CODE_USE = re.compile(r'^ *(?:pub )?use ([\w:]+?)(?:::\{([^}]*)\})?(?: as (\w+))?;$', re.M)
HEAD = re.compile(r'^(?:unfoldable |abbrev )?(?:pub )?(record |data )?([^\W\d][\w-]*)')
PART = re.compile(r'^ +(?:pub )?(\w+) :')
ITEM = re.compile(r'^(?:pub(?:\(\w+\))? )?(struct|enum|trait|type|const|fn|impl)\b *(.*)$')


def read(path):
    with open(path, encoding='utf-8') as file:
        return file.read()


def files_under(folder, ending):
    for base, _, names in sorted(os.walk(folder)):
        for name in sorted(names):
            if name.endswith(ending):
                yield os.path.relpath(os.path.join(base, name), folder)


def names_in(listed):
    """The names of an import's braces: what each is called here, and what it is called there."""
    for part in (listed or '').split(','):
        words = part.split(' as ')
        if words[0].strip():
            yield words[-1].strip(), words[0].strip()


class SpecFile:
    """A file of specs/: its imports, and its definitions with their texts. A constructor leads to its type."""

    def __init__(self, path):
        text = read(path)
        self.lines = text.count('\n')
        first = text.split('\n', 1)[0]
        self.about = first[2:].strip() if first.startswith('--') else ''
        self.names, self.modules, self.passed_on = {}, {}, {}
        for is_pub, module, listed, alias in SPEC_USE.findall(text):
            for here, there in names_in(listed):
                self.names[here] = (module, there)
                if is_pub:
                    self.passed_on[here] = (module, there)
            if not listed:
                self.modules[alias or module.split('.')[-1]] = module
        self.texts, self.owner = {}, {}
        self.read_definitions(text)

    def read_definitions(self, text):
        current, is_data, inside = None, False, False
        for line in text.split('\n'):
            code = line.split('--')[0].rstrip()
            if not code or SPEC_USE.match(code) or code.startswith('pub mod '):
                continue
            if code.startswith('module '):
                inside = True
                continue
            inside = inside and code.startswith('  ')
            if inside:
                code = code[2:]
            head = HEAD.match(code)
            if head:
                current, is_data = head.group(2), head.group(1) == 'data '
                self.owner.setdefault(current, current)
            if current is None:
                continue
            self.texts.setdefault(current, []).append(code)
            part = PART.match(code)
            if is_data and part:
                self.owner.setdefault(part.group(1), current)


class CodeFile:
    """A file of src/: its imports, its types, traits and constants, and the signatures of its functions with their clauses."""

    def __init__(self, path):
        text = read(path)
        self.lines = text.count('\n')
        first = text.split('\n', 1)[0]
        self.about = first[3:].strip() if first.startswith('//!') else ''
        self.names, self.modules, self.code_names = {}, {}, {}
        for module, listed, alias in GHOST_USE.findall(text):
            for here, there in names_in(listed):
                self.names[here] = (module, there)
            if not listed:
                self.modules[alias or module.split('.')[-1]] = module
        for place, listed, alias in CODE_USE.findall(text):
            for here, there in names_in(listed) if listed else [(alias or place.split('::')[-1], None)]:
                parts = place.split('::') + ([there] if there else [])
                self.code_names[here] = parts
        self.texts, self.calls, self.inner, self.kinds = {}, {}, {}, {}
        self.read_items(text)

    def read_items(self, text):
        lines = [line for line in text.split('\n') if not line.lstrip().startswith('//')]
        at = 0
        while at < len(lines):
            found = ITEM.match(lines[at])
            if not found:
                at += 1
                continue
            end = at
            while end + 1 < len(lines) and not self.ends(lines[end], end == at):
                end += 1
            block = lines[at:end + 1]
            self.take(found.group(1), found.group(2), block)
            at = end + 1

    @staticmethod
    def ends(line, is_first):
        return line.startswith('}') or line.endswith((';', '}')) and (is_first or not line.startswith(' '))

    def take(self, kind, rest, block):
        if kind == 'impl':
            self.take_impl(block)
            return
        name = re.match(r'\w+', rest)
        if not name:
            return
        name = name.group(0)
        if kind == 'fn':
            block = self.header(block)
        elif kind == 'trait':
            block = block[:1] + self.without_bodies(block[1:-1])
        self.texts.setdefault(name, []).extend(block)
        self.kinds[name] = kind

    def take_impl(self, block):
        """What contracts see of a type counts as its text. Its public calls and its inner ones stand by themselves."""
        head = re.sub(r'<.*?>', '', block[0])
        found = re.match(r'impl *(?:(\w+) for )?(\w+)', head)
        if not found:
            return
        a_trait, name = found.groups()
        kept = [line for line in self.without_bodies(block[1:-1]) if not line.startswith('    ghost coded')]
        if a_trait == 'Model':
            self.texts.setdefault(name, []).extend(kept)
        elif a_trait:
            self.calls.setdefault(name, []).extend(block[:1] + kept)
        else:
            calls = self.calls.setdefault(name, [])
            for line in kept:
                if re.match(r'    (pub )?(const )?fn ', line):
                    calls = (self.calls if line.startswith('    pub') else self.inner).setdefault(name, [])
                calls.append(line)

    @staticmethod
    def header(block):
        """The lines of a function in front of its body."""
        return block[:block.index('{')] if '{' in block else block

    def without_bodies(self, lines):
        """The lines of an impl or a trait, without the bodies of its functions."""
        kept, inside = [], False
        for line in lines:
            if line == '    {':
                inside = True
            elif line == '    }' and inside:
                inside = False
            elif not inside:
                kept.append(line)
        return kept


@lru_cache(None)
def spec_file(crate, module):
    path = os.path.join(CRATES, crate, 'specs', module.replace('.', '/') + '.antt')
    return SpecFile(path) if os.path.exists(path) else None


@lru_cache(None)
def code_file(crate, module):
    for name in (module + '.rt', module + '/mod.rt'):
        path = os.path.join(CRATES, crate, 'src', name)
        if os.path.exists(path):
            return CodeFile(path)
    return None


@lru_cache(None)
def passed_on(crate):
    """The modules of lower crates that a crate's Lib.antt passes on."""
    path = os.path.join(CRATES, crate, 'specs', 'Lib.antt')
    if not os.path.exists(path):
        return {}
    return {alias or module.split('.')[-1]: module for is_pub, module, _, alias in SPEC_USE.findall(read(path)) if is_pub}


def root_of(crate):
    return 'main' if os.path.exists(os.path.join(CRATES, crate, 'src', 'main.rt')) else 'lib'


def in_code(crate, path):
    """The item of the code at a path of modules, as `host`, `Slot`."""
    modules = [part for part in path if not part[0].isupper()]
    items = [part for part in path if part[0].isupper()]
    if items and items[0] == 'TheConstants':
        items = items[1:]
    if not items:
        return None
    return ('code', crate, '/'.join(modules) or root_of(crate), items[0])


def in_module(module, name):
    """The definition that a module of specs has under a name, as a node. One of the kit has a node that leads nowhere."""
    parts = module.split('.')
    if parts[0] != 'Rattle' or not os.path.isdir(os.path.join(CRATES, parts[1])):
        return ('kit', parts[1] if len(parts) > 1 else module, '.'.join(parts[2:]), name)
    crate, rest = parts[1], parts[3:]
    if rest and rest[0] in ('declared', 'contracts'):
        of_a_type = {'TheVariants', 'TheFolds', 'TheOpen'} & set(rest)
        return in_code(crate, rest[1:] + ([name] if name and not of_a_type else []))
    file = spec_file(crate, '.'.join(rest))
    if file is None:
        lower = passed_on(crate).get(rest[0]) if rest else None
        return in_module('.'.join([lower] + rest[1:]), name) if lower else None
    if name in file.owner:
        return ('spec', crate, '.'.join(rest), file.owner[name])
    if name in file.passed_on:
        return in_module(*file.passed_on[name])
    return None


def from_root(crate, module, parts):
    """A path of Rust as it is read in a module, from the root of its crate on."""
    if parts[0] in ('crate', 'std') or os.path.isdir(os.path.join(CRATES, parts[0])):
        return parts
    around = [] if module == root_of(crate) else module.split('/')
    while parts[0] in ('self', 'super'):
        around = around[:-1] if parts[0] == 'super' else around
        parts = parts[1:]
    return ['crate'] + around + parts


def in_crate(crate, module, parts):
    """The item of the code that a path of Rust names in a module, through `use` and `pub use` lines."""
    parts = from_root(crate, module, parts)
    if parts[0] != 'crate':
        crate = parts[0]
    parts = parts[1:]
    for cut in range(len(parts) - 1, -1, -1):
        place = '/'.join(parts[:cut]) or root_of(crate)
        file = code_file(crate, place)
        if file and parts[cut] in file.texts:
            return ('code', crate, place, parts[cut])
        if file and parts[cut] in file.code_names:
            return in_crate(crate, place, file.code_names[parts[cut]])
    return None


def leads_to(node):
    """The nodes that the text of a node names."""
    kind, crate, module, name = node
    if kind == 'kit':
        return set()
    file = spec_file(crate, module) if kind == 'spec' else code_file(crate, module)
    if file is None:
        return set()
    found = set()
    texts = file.calls if kind == 'calls' else file.inner if kind == 'inner' else file.texts
    for first, second in WORD.findall('\n'.join(texts.get(name, []))):
        target = None
        if first in file.modules and second:
            target = in_module(file.modules[first], second)
        elif kind == 'spec' and first in file.owner:
            target = ('spec', crate, module, file.owner[first])
        elif first in file.names:
            target = in_module(*file.names[first])
        if kind != 'spec':
            if first in file.modules and not target:
                target = in_module(file.modules[first], '')
            if first in file.code_names:
                found.add(in_crate(crate, module, file.code_names[first]))
            elif first in file.texts and file.kinds.get(first) != 'fn':
                found.add(('code', crate, module, first))
        found.add(target)
    return found - {None, node}


def reached(starts):
    seen, waiting = set(starts), list(starts)
    while waiting:
        for node in leads_to(waiting.pop()):
            if node not in seen:
                seen.add(node)
                waiting.append(node)
    return seen


def code_modules(crate):
    return [path[:-3] for path in files_under(os.path.join(CRATES, crate, 'src'), '.rt')]


def exported(crate):
    """The items that a crate exports, with their public calls; of the program, what `main` uses."""
    root, found = code_file(crate, root_of(crate)), set()
    if root is None:
        return set()
    if root_of(crate) == 'main':
        found = {('code', crate, 'run', 'run'), ('code', crate, 'system', 'RealHost')}
    else:
        found = {in_crate(crate, 'lib', parts) for parts in root.code_names.values()} - {None}
        for module in re.findall(r'^pub mod (\w+);', read(os.path.join(CRATES, crate, 'src', 'lib.rt')), re.M):
            found |= {('code', crate, module, name) for name in code_file(crate, module).texts}
    names = {node[3] for node in found}
    calls = {('calls', crate, module, name) for module in code_modules(crate) for name in names & set(code_file(crate, module).calls)}
    return found | calls


def crates_in_order():
    """The crates, each after those that it stands on."""
    stands_on = {}
    for line in read(os.path.join(TOP, 'crates.txt')).split('\n'):
        line = line.split('#')[0].strip()
        if line:
            name, deps = line.split(':', 1)
            stands_on[name.split()[0]] = deps.split()
    order = []

    def put(name):
        if name in stands_on and name not in order:
            for dep in sorted(stands_on[name]):
                put(dep)
            order.append(name)
    for name in sorted(stands_on):
        put(name)
    return order


def sentence(text):
    """The first sentence, without the stop."""
    return re.split(r'(?<=[^.])\.(?:\s|$)', text + ' ')[0].strip().replace('|', '\\|')


def row(crate, kind, module, names):
    """The row of a file, of which these definitions are reached."""
    file = spec_file(crate, module) if kind == 'spec' else code_file(crate, module)
    path = f'specs/{module.replace(".", "/")}.antt' if kind == 'spec' else f'src/{module}.rt'
    listed = ', '.join(f'`{name}`' for name in names)
    every = set(file.owner.values()) if kind == 'spec' else set()
    if kind == 'spec':
        is_whole = set(names) == every and len(every) > 1
        listed = f'all {len(every)}' if is_whole else f'{len(names)} of {len(every)}: {listed}'
    return f'| [{path}](../crates/{crate}/{path}) | {sentence(file.about)} | {file.lines} | {listed} |'


def files_of(crate, nodes):
    """The files of a crate in which nodes stand, with the names of these."""
    for kind, load in (('spec', spec_file), ('code', code_file)):
        for module in sorted({node[2] for node in nodes if node[:2] == (kind, crate)}):
            file = load(crate, module)
            names = sorted({node[3] for node in nodes if node[:3] == (kind, crate, module)} & set(file.texts if file else ()))
            if names:
                yield kind, module, names


def of_the_kit(nodes):
    """The rows of the kit's definitions, by their modules."""
    by_module = {}
    for kind, crate, module, name in nodes:
        if kind == 'kit' and name:
            by_module.setdefault(f'{crate}.{module}', set()).add(f'`{name}`')
    return [f'| {module} | {" ".join(sorted(names))} |' for module, names in sorted(by_module.items())]


def table(nodes):
    """The list of a page: for each crate its files, and what of each is reached."""
    out, count, size = [], 0, 0
    for crate in crates_in_order():
        found = list(files_of(crate, nodes))
        if found:
            out += ['', f'**{crate}**', '', '| file | what it is about | lines | behind `run` |', '|---|---|---|---|']
        for kind, module, names in found:
            out.append(row(crate, kind, module, names))
            if kind == 'spec':
                count += len(names)
                size += sum(len(spec_file(crate, module).texts[name]) for name in names)
    out += ['', '**The kit\'s own definitions**', '', '| module | names |', '|---|---|'] + of_the_kit(nodes)
    head = f'{count} definitions in {size} lines of `specs/` stand behind `run`,'
    return '\n'.join([head, 'and the types, traits and constants of the code that they name.'] + out)


def stop_at_lost_imports():
    """Ends the script where a file imports a definition that isn't found."""
    for crate in crates_in_order():
        folder = os.path.join(CRATES, crate)
        files = [(path, spec_file(crate, path[:-5].replace('/', '.'))) for path in files_under(os.path.join(folder, 'specs'), '.antt')]
        files += [(module, code_file(crate, module)) for module in code_modules(crate)]
        for path, file in files:
            for module, name in file.names.values():
                if in_module(module, name) is None:
                    sys.exit(f'{crate}, {path}: {module}.{name} is not found')


def unreached():
    """Prints the definitions that no exported item reaches, file by file."""
    within = set()
    for crate in crates_in_order():
        for module in code_modules(crate):
            file = code_file(crate, module)
            for kind, names in (('code', file.texts), ('calls', file.calls), ('inner', file.inner)):
                within |= {(kind, crate, module, name) for name in names}
    seen, within = behind_exports(), reached(within)
    print('Definitions that no exported item reaches; with a * those that no contract of any function reaches.')
    for crate in crates_in_order():
        for path in files_under(os.path.join(CRATES, crate, 'specs'), '.antt'):
            module = path[:-5].replace('/', '.')
            every = set(spec_file(crate, module).owner.values())
            left = sorted(name for name in every if ('spec', crate, module, name) not in seen)
            if left and not module.startswith('inside.'):
                print(f'{crate}/specs/{path}: {len(left)} of {len(every)}' + (' (the whole file)' if len(left) == len(every) else ''))
                print('    ' + ' '.join(name + '*' * (('spec', crate, module, name) not in within) for name in left))


def strays(page):
    """The rows of the page whose definitions don't stand in the file that the row names."""
    path = None
    for line in page.split('\n'):
        cells = [cell.strip() for cell in line.split('|')[1:-1]]
        if len(cells) != 3:
            continue
        path = cells[1] if cells[1] != 'the same' else path
        found = re.fullmatch(r'(\w+)/specs/([\w/]+)\.antt', path or '')
        if not found:
            continue
        for name in re.findall(r'`([\w-]+)[^`]*`', cells[0]):
            file = spec_file(found.group(1), found.group(2).replace('/', '.'))
            if file is None or name not in file.owner:
                yield f'{name} does not stand in {path}'


def unexplained(page, nodes):
    """The definitions behind `run` that the tables of the page don't name."""
    explained = set(re.findall(r'[\w-]+', ' '.join(re.findall(r'`([^`]*)`', page.split(MARKS['inside'][0])[0]))))
    for kind, crate, module, name in sorted(nodes):
        if kind == 'spec' and name not in explained:
            yield f'{name} of {crate}/specs/{module} is not explained'


def behind_exports():
    """All that the exported items of all crates reach."""
    return reached(set().union(*(exported(crate) for crate in crates_in_order())))


def misplaced():
    """The definitions of specs/inside/ that an exported item reaches."""
    for kind, crate, module, name in sorted(behind_exports()):
        if kind == 'spec' and module.startswith('inside.'):
            yield f'{name} of {crate}/specs/{module} stands behind an exported item'


def inside():
    """The list of the files of specs/inside/."""
    out = ['| file | what it is about | lines |', '|---|---|---|']
    for crate in crates_in_order():
        for path in files_under(os.path.join(CRATES, crate, 'specs', 'inside'), '.antt'):
            if path != 'Lib.antt':
                file = spec_file(crate, 'inside.' + path[:-5].replace('/', '.'))
                out.append(f'| {crate}/specs/inside/{path} | {sentence(file.about)} | {file.lines} |')
    return '\n'.join(out)


def with_list(page, name, listed):
    begin, end = MARKS[name]
    if begin not in page or end not in page:
        sys.exit(f'{PAGE} has no marks for {name}')
    front, rest = page.split(begin, 1)
    return front + begin + '\n' + listed + '\n' + end + rest.split(end, 1)[1]


def main():
    stop_at_lost_imports()
    if '--unreached' in sys.argv[1:]:
        unreached()
        return 0
    page, nodes = read(PAGE), reached({('code',) + START})
    made = with_list(with_list(page, 'inside', inside()), 'list', table(nodes))
    if '--check' in sys.argv[1:]:
        faults = list(strays(page)) + list(unexplained(page, nodes)) + list(misplaced())
        if made != page:
            faults.append('a list is another one: call docs/definitions.py')
        print('\n'.join(faults) or 'the page is as the files are')
        return 1 if faults else 0
    with open(PAGE, 'w', encoding='utf-8') as file:
        file.write(made)
    return 0


if __name__ == '__main__':
    sys.exit(main())
