#!/usr/bin/env python3
"""Links from the promises of docs/THEOREMS.md to what gives them, and whether the links of the documents lead anywhere.

  tools/links.py --write    link each name in backquotes in the second column of a table of promises (in the first of the table of theorems) to the
                            line that declares it, in a file that the row's last column names, or in the one file of crates/ that has it
  tools/links.py --check    exit 1 if such a name has no link, is declared nowhere, or has a link to a line that does not declare it; or if a relative
                            link of a document leads to no file, line or heading, or a script of tools/ or tests/ or an exported name that it has is
                            not there; or if a name in backquotes of THEOREMS.md, REFERENCE.md or SECRECY.md is nowhere in the tree"""
import os
import re
import sys

TOP = os.path.dirname(os.path.dirname(os.path.abspath(__file__)))
HEADER = 'include/yikescanvas.h'
INDEX = 'docs/THEOREMS.md'
DOCUMENTS = ['README.md', 'docs/THEOREMS.md', 'docs/REFERENCE.md', 'docs/SECRECY.md', 'docs/CONTRIBUTING.md', 'docs/DECISIONS.md', 'docs/PERFORMANCE.md']
# Words in backquotes that are neither declared here nor callers' names: the language's, its library's, and those of the C library.
OUTSIDE = {'requires', 'std::io', 'std::fs', 'std::env', 'std::thread', 'os', 'memcpy', 'memset', 'strerror_r', 'close', 'fsync', 'unlink'}
CALLERS = [HEADER, 'rust/yikescanvas/src/lib.rs', 'crates/boundary/src/lib.rt', 'crates.txt']
LINKED = re.compile(r'\[(`[^`]+`)\]\([^)]*\)')


def read(path):
    with open(os.path.join(TOP, path), encoding='utf-8') as file:
        return file.read()


def sources():
    """Every file of code, definitions and proofs of functions or laws; what rt leaves in out/ is none."""
    crates = os.path.join(TOP, 'crates')
    for folder, _, names in sorted(os.walk(crates)):
        if not {'must-fail', 'out'} & set(os.path.relpath(folder, crates).split(os.sep)):
            yield from (os.path.relpath(os.path.join(folder, n), TOP) for n in sorted(names) if n.endswith(('.rt', '.antt')))


DECLARED = {}


def declared(path):
    """The names that a file declares, each with its line: in antt definitions, laws, records and data; in Rattle functions, methods, types, constants."""
    if path in DECLARED:
        return DECLARED[path]
    found, owner = {}, ''
    for number, line in enumerate(read(path).split('\n'), 1):
        if path.endswith('.antt'):
            m = re.match(r'\s*(?:unfoldable |abbrev )?(?:pub )?(?:record|data) (\S+)', line)
            m = m or re.match(r'\s*(?:unfoldable |abbrev )?(?:pub )?([^\s(){}:,]+)(?: \{\S+\})? :( |$)', line)
            names = [m.group(1)] if m else []
        else:
            owner = (re.match(r'impl (\w+)', line) or [0, owner])[1] if line[:1].strip() else owner
            m = re.match(r'(\s*)(?:pub )?(?:extern "C" )?(?:fn|struct|enum|const|type) (\w+)', line)
            names = [m.group(2), owner + '::' + m.group(2)] if m and m.group(1) else [m.group(2)] if m else []
        for name in names:
            found.setdefault(name, number)
    DECLARED[path] = found
    return found


def files_of(cell):
    """The files that the last cell of a row names: a bare name, as Opening, stands in the folder of the one before it."""
    files, folder = [], ''
    for item in (x.strip() for x in cell.split(',')):
        m = re.match(r'([a-z_]+/(?:specs|proofs|src))(?:/(\S+))?$', item)
        if m:
            folder, item = 'crates/' + m.group(1), m.group(2)
        if not item and folder:
            files += [p for p in sources() if os.path.dirname(p) == folder]
        elif item:
            files.append('%s/%s' % (folder, item if item.endswith('.rt') else item + '.antt'))
    return [f for f in files if os.path.exists(os.path.join(TOP, f))]


def target(name, contract, files):
    """Where a name leads: a file and a line, or a file for a module's name; and a fault, or None. A contract's name is a function's first."""
    kinds = ['/src/', '/proofs/', '/specs/'] if contract else ['/proofs/', '/specs/', '/src/']
    for kind in kinds:
        for path in files:
            if kind in path and name in declared(path):
                return (path, declared(path)[name]), None
    for path in files:
        if os.path.basename(path) == name + '.antt' or name.endswith('*') and any(n.startswith(name[:-1]) for n in declared(path)):
            return (path, None), None
    everywhere = [p for p in sources() if name in declared(p) and not re.search(r'/proofs/.+/[^/]+\.antt$', p)]
    if len(everywhere) == 1:
        return (everywhere[0], declared(everywhere[0])[name]), None
    if everywhere:
        return None, '%s is declared in %s: the row must name one of them' % (name, ', '.join(everywhere))
    return None, '%s is declared nowhere' % name


def link(place):
    path, line = place
    return os.path.relpath(path, os.path.dirname(INDEX)) + ('#L%d' % line if line else '')


def linked(cell, where, faults):
    """A cell with every name linked."""
    plain, out, at = LINKED.sub(r'\1', cell), '', 0
    for m in re.finditer(r'`([^`]+)`', plain):
        clause = plain[:m.start()].rsplit(';', 1)[-1]
        place, fault = target(m.group(1), 'contract' in clause, files_of(where))
        if fault:
            faults.append('%s: %s' % (INDEX, fault))
        out += plain[at:m.start()] + ('[%s](%s)' % (m.group(0), link(place)) if place else m.group(0))
        at = m.end()
    return out + plain[at:]


def index(faults):
    """The text of the index with all its links."""
    out, head = [], None
    for line in read(INDEX).split('\n'):
        cells = [c.strip() for c in line.strip().strip('|').split('|')] if line.startswith('|') else None
        head = head if cells and head else cells
        column = {('promise', 'by', 'where'): 1, ('in plain words', 'by'): 1, ('theorem', 'where'): 0}.get(tuple(head or ()))
        if cells and column is not None and len(cells) == len(head) and cells != head and cells[0] != '---':
            cells[column] = linked(cells[column], cells[-1], faults)
            line = '| %s |' % ' | '.join(cells)
        out.append(line)
    return '\n'.join(out)


def anchors(path):
    """The headings of a document, as a link names them."""
    for heading in re.findall(r'^#+ (.*)$', read(path), re.M):
        yield re.sub(r'[^\w\- ]', '', heading.lower()).replace(' ', '-')


def dead(document):
    text = read(document)
    prose = re.sub(r'```.*?```', '', text, flags=re.S)
    for goal in re.findall(r'\]\(([^)\s]+)\)', prose):
        if re.match(r'[a-z]+:', goal):
            continue
        path, _, anchor = goal.partition('#')
        path = os.path.normpath(os.path.join(os.path.dirname(document), path)) if path else document
        if not os.path.exists(os.path.join(TOP, path)):
            yield '%s: no file at %s' % (document, goal)
        elif re.match(r'L\d+$', anchor):
            if int(anchor[1:]) > len(read(path).split('\n')):
                yield '%s: no line at %s' % (document, goal)
        elif anchor and anchor not in anchors(path):
            yield '%s: no heading at %s' % (document, goal)
    for name in sorted(set(re.findall(r'\b(?:yikes_[a-z]|YIKES_)\w+', text))):
        if not re.search(r'\b%s\b' % name, read(HEADER)):
            yield '%s: %s has no %s' % (document, HEADER, name)
    for path in sorted(set(re.findall(r'\b(?:tools|tests)/[\w/]+\.(?:py|sh|c)\b', text))):
        if not os.path.exists(os.path.join(TOP, path)):
            yield '%s: no %s' % (document, path)


def unknown(document):
    """Names in backquotes, in whatever place of a document, that nothing has: no file declares them or is called so, and no caller knows them."""
    known = OUTSIDE | {name for path in sources() for name in declared(path)} | {os.path.basename(p).split('.')[0] for p in sources()}
    callers = set(re.findall(r'\w+', ' '.join(map(read, CALLERS))))
    for name in sorted(set(re.findall(r'`([A-Za-z][\w:·-]*)`', re.sub(r'```.*?```', '', read(document), flags=re.S)))):
        if name not in known and name not in callers:
            yield '%s: nothing has the name %s' % (document, name)


def main():
    faults = []
    text = index(faults)
    if '--write' in sys.argv:
        with open(os.path.join(TOP, INDEX), 'w', encoding='utf-8') as file:
            file.write(text)
    elif '--check' in sys.argv:
        for old, new in zip(read(INDEX).split('\n'), text.split('\n')):
            if old != new:
                faults.append('%s: a link is missing or wrong (tools/links.py --write): %s' % (INDEX, old[:100]))
        faults += [fault for document in DOCUMENTS for fault in dead(document)]
        faults += [fault for document in (INDEX, 'docs/REFERENCE.md', 'docs/SECRECY.md') for fault in unknown(document)]
    else:
        sys.exit(__doc__)
    for fault in faults:
        print(fault)
    return 1 if faults else 0


if __name__ == '__main__':
    sys.exit(main())
