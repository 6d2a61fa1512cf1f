#!/usr/bin/env python3
"""Groups the functions and structs of src/ whose text differs only in names, numbers and literals."""
import glob, re, sys
KEEP = {'fn', 'let', 'mut', 'if', 'else', 'match', 'for', 'while', 'in', 'return', 'self', 'as', 'impl', 'struct', 'enum',
        'Some', 'None', 'Ok', 'Err', 'true', 'false', 'matches'}

def bodies(text):
    for m in re.finditer(r'\b(fn|struct)\s+(\w+)', text):
        i = m.end()
        depth = 0
        start = None
        while i < len(text):
            c = text[i]
            if c == ';' and start is None and m.group(1) == 'struct':
                break
            if c == '{':
                line = text[:i].rsplit('\n', 1)[-1]
                if start is None and re.match(r'\s*(requires|ensures)\b', line):
                    d = 1
                    i += 1
                    while d:
                        d += (text[i] == '{') - (text[i] == '}')
                        i += 1
                    continue
                if start is None:
                    start = i
                depth += 1
            elif c == '}' and start is not None:
                depth -= 1
                if depth == 0:
                    yield m.group(1), m.group(2), text[start:i + 1]
                    break
            i += 1

def shape(body):
    body = re.sub(r'//[^\n]*', '', body)
    body = re.sub(r'b?"(\\.|[^"\\])*"', ' S ', body)
    body = re.sub(r"b?'(\\.|[^'\\])'", ' N ', body)
    tokens = re.findall(r'[A-Za-z_]\w*|\d\w*|[^\s\w]', body)
    out = []
    for t in tokens:
        if re.match(r'\d', t) or t == 'N':
            out.append('N')
        elif t in KEEP or not re.match(r'[A-Za-z_]', t):
            out.append(t)
        else:
            out.append('I')
    return ' '.join(out)

groups = {}
for path in sorted(glob.glob('crates/*/src/**/*.rt', recursive=True)):
    for kind, name, body in bodies(open(path).read()):
        s = shape(body)
        if len(s.split()) >= 8:
            groups.setdefault((kind, s), []).append(f'{path[7:]}:{name}')
for (kind, s), names in sorted(groups.items(), key=lambda g: -len(g[1])):
    if len(names) > 1:
        print(f'{len(names)} {kind}: ' + ', '.join(names) + (f'\n    {s}' if '-v' in sys.argv else ''))
