#!/usr/bin/env python3
"""rewrap.py FILE.. : rewraps paragraphs and list items of Markdown at 120 columns, in place. Tables, code, headings and
blank lines stay; code spans are not broken; no line begins with what Markdown would take for a list, table or heading."""
import re, sys
WIDTH = 120
BULLET = re.compile(r'^(\s*)([-*+]|\d+\.)( +)(.*)$')
BAD = re.compile(r'^([-+*>|]|#+|\d+[.)]|=+)$')

def words(text):
    spans = re.sub(r'`[^`]*`', lambda m: re.sub(r'\s+', '\0', m.group()), text)
    out = []
    for word in spans.split():
        if out and BAD.match(word):
            out[-1] += '\1' + word
        else:
            out.append(word)
    return out

def wrap(text, first, rest):
    lines, line = [], first
    for word in words(text):
        if len(line) + len(word) + (line.strip() != '' and not line.endswith(' ')) > WIDTH and line.strip() and line != first:
            lines.append(line)
            line = rest + word
        else:
            line += ('' if line in (first, rest) else ' ') + word
    lines.append(line)
    return [l.replace('\0', ' ').replace('\1', ' ') for l in lines]

def rewrap(source):
    out, block, fence = [], None, False   # block: [first, rest, text]
    def flush():
        nonlocal block
        if block:
            out.extend(wrap(block[2], block[0], block[1]))
            block = None
    for line in source.split('\n'):
        if line.lstrip().startswith('```'):
            flush(); fence = not fence; out.append(line); continue
        if fence or not line.strip() or re.match(r'^(#|\|)', line) or (line.startswith('    ') and block is None):
            flush(); out.append(line); continue
        bullet = BULLET.match(line)
        if bullet and (block is None or not bullet.group(1) or block[1]):
            flush()
            first = bullet.group(1) + bullet.group(2) + bullet.group(3)
            block = [first, ' ' * len(first), bullet.group(4)]
        elif block:
            block[2] += ' ' + line.strip()
        else:
            block = ['', '', line]
    flush()
    return '\n'.join(out)

for name in sys.argv[1:]:
    old = open(name).read()
    new = rewrap(old)
    if old.split() != new.split():
        sys.exit(name + ': more than white space would change')
    open(name, 'w').write(new)
    print(name, 'rewrapped; longest line outside tables:', max((len(l) for l in new.split('\n') if not l.startswith('|')), default=0))
