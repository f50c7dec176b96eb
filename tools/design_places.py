#!/usr/bin/env python3
"""tools/design_places.py [POINT]: counts, in crates/*/src and proofs, the places that docs/DESIGN-PASS.md speaks of; with
a point's number it lists them. It goes by text: what it lists is to be read, and the page says what became of it."""
import collections
import glob
import re
import sys

FUNCTION = re.compile(r'^ *(?:pub )?(?:extern "C" )?fn (\w+)[^\n(]*\(', re.M)
TYPES = r'\b(?:[iu](?:8|16|32|64|size)|f32|f64|bool)\b'


def functions():
    """(file, name, parameters, clauses, body) of each function."""
    for path in sorted(glob.glob('crates/*/src/*.rt')):
        text = open(path, encoding='utf-8').read()
        for found in FUNCTION.finditer(text):
            depth, i = 1, found.end()
            while depth:
                depth += {'(': 1, ')': -1}.get(text[i], 0)
                i += 1
            parameters = text[found.end():i - 1]
            lines = text[i:].split('\n')
            head, body, k = [], [], 0
            indent = re.match(r' *', text[found.start():]).group(0)
            if lines[0].rstrip().endswith('{'):
                head = [lines[0]]
            else:
                while k < len(lines) and lines[k] != indent + '{':
                    head.append(lines[k])
                    k += 1
            k += 1
            while k < len(lines) and lines[k] != indent + '}':
                body.append(lines[k])
                k += 1
            yield path, found.group(1), parameters, '\n'.join(head), '\n'.join(body)


def items(kind):
    for path in sorted(glob.glob('crates/*/src/*.rt')):
        text = open(path, encoding='utf-8').read()
        for found in re.finditer(r'^(?:pub )?' + kind + r' (\w+)[^;{(]*\{(.*?)^\}', text, re.M | re.S):
            yield path, found.group(1), found.group(2)


def point1():
    for path, name, body in items('enum'):
        yield f'{path}: enum {name}'
    for path, name, body in items('struct'):
        if re.search(r'\b(?:number: u32|\w+: bool)', body):
            yield f'{path}: struct {name}'
    for path, name, parameters, head, body in functions():
        if re.search(r'-> (?:u32|u64|usize)', head) and re.search(r'_number|refusal \(', head):
            yield f'{path}: fn {name} answers a number'
        elif re.search(r'\bnumber: u32', parameters):
            yield f'{path}: fn {name} is handed a number'


def skeleton(parameters, body):
    names = {}
    text = re.sub(TYPES, 'T', parameters + '{' + body)
    text = re.sub(r'//[^\n]*', '', text)
    text = re.sub(r'\b\d[\w.]*', '0', text)
    text = re.sub(r'\b(?!T\b)[A-Za-z_]\w*', lambda m: names.setdefault(m.group(0), f'n{len(names)}'), text)
    return re.sub(r'\s+', '', text)


def point2():
    groups = collections.defaultdict(list)
    for path, name, parameters, head, body in functions():
        if len(body.strip().split('\n')) > 2:
            groups[skeleton(parameters, body)].append(f'{path}: fn {name}')
    for group in groups.values():
        if len(group) > 1:
            yield ' = '.join(group)


def point3():
    for path in sorted(glob.glob('crates/*/src/*.rt')):
        for k, line in enumerate(open(path, encoding='utf-8'), 1):
            if re.match(r'\s*(?:while|loop)\b', line):
                yield f'{path}:{k}: {line.strip()}'


def point4():
    word = r'(?:^|_)(?:min|max|larger|smaller|abs|equal|same|copy|copied|eq|less|before|sign|signed|magnitude|widened|wide)(?:_|$)'
    for path, name, parameters, head, body in functions():
        if re.search(word, name) or (name.startswith('is_') and 'match' in body):
            yield f'{path}: fn {name}'
    for path, name, body in items('struct'):
        text = open(path, encoding='utf-8').read()
        if re.search(r'#\[derive\(Drop\)\]\n(?:pub )?struct ' + name + r'\b', text):
            yield f'{path}: struct {name} is only Drop'


def point5():
    clauses = collections.defaultdict(set)
    for path, name, parameters, head, body in functions():
        count = len([p for p in re.split(r',(?![^<\[(]*[>\])])', parameters) if ':' in p])
        if count > 6:
            yield f'{path}: fn {name} has {count} parameters'
        for clause in re.findall(r'requires [^{\n]*\{(.*)\}', head):
            clauses[(path, re.sub(r'\s+', ' ', clause))].add(name)
    for (path, clause), names in clauses.items():
        if len(names) > 2:
            yield f'{path}: {len(names)} functions require{clause}'


def point6():
    for path, name, parameters, head, body in functions():
        if re.search(r'&(?:mut )?\[', parameters) and re.search(r'\b(?:size|len|count|s|h|n|k): usize', parameters):
            yield f'{path}: fn {name}: a slice and a count'
        arrays = re.findall(r'&(?:mut )?\[(\w+; \w+)\]', parameters)
        if len(arrays) > len(set(arrays)):
            yield f'{path}: fn {name}: arrays side by side'


def point7():
    for path, name, parameters, head, body in functions():
        arms = re.findall(r'=> \w+\(', body)
        if len(arms) > 2:
            yield f'{path}: fn {name}: a match over {len(arms)} calls'
        if re.search(r': (?:bool)', parameters):
            yield f'{path}: fn {name}: a bool chooses'


def point8():
    for kind in ('Proof', 'Answers', 'Invariants'):
        for path in sorted(glob.glob(f'crates/*/proofs/**/{kind}.antt', recursive=True)):
            yield path


POINTS = [point1, point2, point3, point4, point5, point6, point7, point8]
if len(sys.argv) > 1:
    print('\n'.join(POINTS[int(sys.argv[1]) - 1]()))
else:
    for number, point in enumerate(POINTS, 1):
        print(number, len(list(point())))
