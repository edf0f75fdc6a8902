#!/usr/bin/env python3
"""Lists places in crates/*/src that a form of the language could make plainer: python3 tools/places.py [KIND]

Kinds: options, twins, loops, conversions, derives, together, buffers, switches. Each line is FILE:LINE and what stands there; the last line of a
kind is its count. It goes by the text and by simple shapes, so it finds more than what needs a change, and a reader decides.
"""
import collections
import glob
import re
import sys

FUNCTION = re.compile(r'^( *)(?:pub(?:\(crate\))? )?fn (\w+)', re.M)


def sources():
    for path in sorted(glob.glob('crates/*/src/*.rt')):
        with open(path) as file:
            yield path, file.read()


def line_of(text, at):
    return text.count('\n', 0, at) + 1


def functions():
    """Path, line, name, signature with clauses, and body of each function."""
    for path, text in sources():
        for found in FUNCTION.finditer(text):
            indent = found.group(1)
            start = text.find('\n' + indent + '{\n', found.start())
            brace = text.find('{\n', found.start())
            empty = text.find(';\n', found.start())
            if start == -1 or (brace != -1 and brace < start):
                start = brace
            if start == -1 or (empty != -1 and empty < start and '{' not in text[found.start():empty].split('\n')[0]):
                continue
            end = text.find('\n' + indent + '}', start)
            if end == -1:
                continue
            yield path, line_of(text, found.start()), found.group(2), text[found.start():start], text[start:end]


def grep(pattern):
    for path, text in sources():
        for number, line in enumerate(text.split('\n'), 1):
            if re.search(pattern, line):
                yield f'{path}:{number}: {line.strip()}'


def options():
    """Matches that take an Option or Result apart to make it again, enums with a case None, and texts or numbers as kinds."""
    yield from grep(r'None => None|None => return (None|Err)|Err\(_\) =>|\blet (Some|Ok)\(.*\) = .* else \{')
    for path, text in sources():
        for found in re.finditer(r'enum (\w+)[^{;]*\{\n((?:    .*\n)*?)    None,', text):
            yield f'{path}:{line_of(text, found.start())}: {found.group(1)} has a case None'
    yield from grep(r'\b(operation|action|kind|code): (u8|u64|&str)')


def shape(body):
    """The body with numbers, texts and names that differ between twins taken out."""
    body = re.sub(r'//.*', '', body)
    body = re.sub(r'"[^"]*"|b\'.\'|\b0x[0-9A-Fa-f_]+\b|\b\d[\d_]*\b', '#', body)
    body = re.sub(r'\b[A-Z]\w*(::\w+)*', 'T', body)
    body = re.sub(r'\b[a-z_]\w*', 'v', body)
    return ''.join(body.split())


def twins():
    """Functions whose bodies are the same but for names and numbers (bodies of some length)."""
    groups = collections.defaultdict(list)
    for path, line, name, _, body in functions():
        form = shape(body)
        if len(form) >= 24:
            groups[form].append(f'{path}:{line}: {name}')
    for form, places in sorted(groups.items()):
        if len(places) > 1:
            for place in places:
                yield f'{place}   [{len(places)} of one shape]'


def loops():
    """Loops over a range of numbers, and loops with a condition."""
    yield from grep(r'\bfor \w+ in [^{]*\.\.|\bwhile \b|\bloop \{')


def conversions():
    """Functions that are one match between values and cases, or make an Option or Result of a value, and impls of From."""
    for path, line, name, signature, body in functions():
        inner = body.strip().lstrip('{').strip()
        if re.match(r'match [^{]*\{', inner) and re.search(r'=> (Some\(\w+::|"|\d|b\'|\w+::\w+,|\w+::\w+$)', inner):
            yield f'{path}:{line}: {name}'
        if re.match(r'(new|from_\w+|unpack|parse)$', name) and re.search(r'-> (Option|Result|anyhow::Result)<', signature):
            yield f'{path}:{line}: {name}'
    yield from grep(r'^impl (From|PartialEq|Ord|Clone)\b')


def derives():
    """Types without a comparison, and comparisons and prints by hand."""
    for path, text in sources():
        for found in re.finditer(r'#\[derive\(Clone, Copy\)\]\n(pub |pub\(crate\) )?(struct|enum) (\w+)', text):
            yield f'{path}:{line_of(text, found.start())}: {found.group(3)} derives no comparison'


def together():
    """Pairs of parameters or fields of records that stand together in three functions and more, and clauses in three functions and more."""
    pairs = collections.defaultdict(list)
    clauses = collections.defaultdict(set)
    for path, line, name, signature, _ in functions():
        head = re.split(r'\n *(?:requires|ensures)', signature)[0]
        names = sorted(set(re.findall(r'(\w+: &?(?:mut )?[\w\[\]:]+)', head)) - {'rt: &HostRuntime'})
        for i, first in enumerate(names):
            for second in names[i + 1:]:
                pairs[(first, second)].append(f'{path}:{line}: {name}')
        for clause in re.findall(r'(?:requires|ensures)(?: \w+)? \{(.*)\}', signature):
            for term in re.findall(r'\b\w+ \(?[\w.]+(?: [\w.]+)*', clause):
                clauses[(path.split('/')[1], term)].add(f'{path}:{line}: {name}')
    for (first, second), places in sorted(pairs.items()):
        if len(places) >= 3:
            yield f'{first}, {second}: ' + '; '.join(sorted(set(places)))
    for (crate, term), places in sorted(clauses.items()):
        if len(places) >= 3 and len(term.split()) >= 3:
            yield f'clause "{term}" in {crate}: {len(places)} functions'


def buffers():
    """Arrays with a length or a second array beside them, and lists that are enums."""
    for path, text in sources():
        for found in re.finditer(r'struct (\w+)[^{;]*\{([^}]*)\}', text):
            fields = found.group(2)
            arrays = re.findall(r'(\w+): (?:\[[^\]]*;|Vec<)', fields)
            if arrays and (re.search(r'\b(count|used|len|length): usize', fields) or len(arrays) > 1):
                yield f'{path}:{line_of(text, found.start())}: {found.group(1)}'
        for found in re.finditer(r'enum (\w+) \{([^}]*)\}', text):
            if re.search(r'One\(.*\n?.*Two\(', found.group(2)):
                yield f'{path}:{line_of(text, found.start())}: {found.group(1)}'


def switches():
    """Matches on a text or on a parameter that says which step to run, and runs of three calls that differ in one name."""
    yield from grep(r'match (action|kind|name|keep|case\.operation|access\.action|self\.action) \{')
    for path, text in sources():
        for found in re.finditer(r'\n( +)(\w+)\(([^\n]*)\);\n +\2\([^\n]*\);\n +\2\(', text):
            yield f'{path}:{line_of(text, found.start()) + 1}: {found.group(2)} three times'


KINDS = {f.__name__: f for f in (options, twins, loops, conversions, derives, together, buffers, switches)}

for kind in sys.argv[1:] or KINDS:
    places = list(KINDS[kind]())
    print('\n'.join(places))
    print(f'{kind}: {len(places)}\n')
