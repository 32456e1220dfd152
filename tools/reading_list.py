#!/usr/bin/env python3
"""The definitions that a reader must believe: those that the contracts of the exported calls (crates/boundary) and the statements of the
theorems listed in docs/THEOREMS.md reach, by file, with line counts.

  tools/reading_list.py            the list, as it stands in docs/THEOREMS.md
  tools/reading_list.py --check    exit 1 if docs/THEOREMS.md has another list, if a definition on the list stands in proofs/, if a file of
                                   specs/ cites proofs/, or if a spec that is not on the list does not say so in its first line
  tools/reading_list.py --write    put the list into docs/THEOREMS.md

It reads names, not meanings: a name that a file imports and a definition mentions counts as reached."""
import os
import re
import sys

TOP = os.path.dirname(os.path.dirname(os.path.abspath(__file__)))
WORD = re.compile(r"[^\s(){}\[\],;.]+")
INTERNAL = 'Internal'


def read(path):
    with open(os.path.join(TOP, path), encoding='utf-8') as file:
        return file.read()


def module_path(module):
    """The file of a module's name, below crates/, or None for one of the kit's, as std's."""
    m = re.match(r'Rattle\.(\w+)\.(specs|proofs)\.(.+)$', module)
    if not m or not os.path.isdir(os.path.join(TOP, 'crates', m.group(1))):
        return None
    crate, kind, rest = m.groups()
    if rest.startswith('declared.'):
        return 'crates/%s/src/lib.rt' % crate
    return 'crates/%s/%s/%s.antt' % (crate, kind, rest.replace('.', '/'))


class Module:
    """The definitions of one file of antt: the text and the statement of each, and what the file imports."""

    def __init__(self, path):
        self.path = path
        lines = [re.sub(r'(^|\s)--( .*)?$', '', line) for line in read(path).split('\n')]
        self.uses, self.passed, self.modules, self.defs = {}, {}, {}, {}
        headers = []
        i = 0
        while i < len(lines):
            line = lines[i]
            m = re.match(r'(?:unfoldable )?(pub )?use (\S+?)(\.\{.*| as \S+)?$', line)
            if m:
                while '{' in line and '}' not in line:
                    i += 1
                    line += ' ' + lines[i].strip()
                self.use(m.group(1), m.group(2), line[m.end(2):])
                i += 1
                continue
            indent = len(line) - len(line.lstrip())
            if line.strip():
                headers = [h for h in headers if h[0] < indent]
            if re.match(r'\s*module _ ', line):
                text = line
                while not text.rstrip().endswith('where'):
                    i += 1
                    text += '\n' + lines[i]
                headers.append((indent, text))
                i += 1
                continue
            m = re.match(r'\s*(?:unfoldable |abbrev )?(?:pub )?(?:record|data) (\S+)', line)
            m = m or re.match(r'\s*(?:unfoldable |abbrev )?(?:pub )?([^\s(){}:,]+)(?: \{\S+\})? : ', line)
            if not m:
                i += 1
                continue
            start = i
            i += 1
            while i < len(lines) and not (not lines[i].strip() and self.ends(lines, i, indent)):
                i += 1
            body = lines[start:i]
            head = [body[0]]
            for line in body[1:]:
                if re.match(r'\s*(unfolding\b|%s(\s|$))' % re.escape(m.group(1)), line) and ' : ' not in line.split('=')[0]:
                    break
                head.append(line)
            above = '\n'.join(h[1] for h in headers)
            self.defs[m.group(1)] = ('\n'.join(body) + '\n' + above, '\n'.join(head) + '\n' + above, len([x for x in body if x.strip()]))

    def use(self, is_passed, path, rest):
        """An import: of names, in braces, or of a module, by its own name or another."""
        if not rest.startswith('.{'):
            self.modules[rest.partition(' as ')[2] or path.split('.')[-1]] = module_path(path)
            return
        for item in rest.strip('.{}').split(','):
            name, _, alias = item.strip().partition(' as ')
            where = (module_path(path), name)
            self.uses[alias or name] = where
            if is_passed:
                self.passed[alias or name] = where

    @staticmethod
    def ends(lines, i, indent):
        for line in lines[i:]:
            if line.strip():
                return len(line) - len(line.lstrip()) <= indent
        return True


MODULES = {}


def module(path):
    if path not in MODULES:
        full = os.path.join(TOP, path)
        MODULES[path] = Module(path) if path.endswith('.antt') and os.path.exists(full) else None
    return MODULES[path]


def place(path, name):
    """Where a name that a file knows is defined: a file and a name, or None."""
    m = module(path)
    if m is None:
        return None
    if name in m.defs:
        return (path, name)
    where = m.passed.get(name)
    return place(*where) if where and where[0] else None


def bound(text):
    """The names that a text binds itself, as parameters of its own or by a let or a λ."""
    names = set()
    for m in re.finditer(r'[({]([^(){}:]+) :', text):
        names |= set(m.group(1).split())
    for m in re.finditer(r'λ ([^.]*)\.|\blet (\S+)', text):
        names |= set((m.group(1) or m.group(2)).split())
    return names


def resolve(text, uses, own):
    """The definitions that a text mentions: words that no dot precedes, so no fields, and names of a module, M.f."""
    found = set()
    modules = module(own).modules if own else {}
    local = bound(text)
    for above, name in re.findall(r"(?<![^\s(){}\[\],;])([^\s(){}\[\],;.]+)\.([^\s(){}\[\],;.]+)", text):
        at = place(modules[above], name) if modules.get(above) and above not in local else None
        found |= {at} if at else set()
    text = re.sub(r'(?<![λ\s])\.(?=[^\s.])[^\s(){}\[\],;]+', ' ', text)
    for word in WORD.findall(text):
        if word in local:
            continue
        if own and word in module(own).defs:
            found.add((own, word))
        elif word in uses and uses[word][0]:
            at = place(*uses[word])
            if at:
                found.add(at)
    return found


def exported():
    """What the contracts of the exported calls mention."""
    text = read('crates/boundary/src/lib.rt')
    uses = {}
    for m in re.finditer(r'^ghost use (\S+?)\.\{(.*?)\};$', text, re.M | re.S):
        for item in m.group(2).split(','):
            name, _, alias = item.strip().partition(' as ')
            uses[alias or name] = (module_path(m.group(1)), name)
    found = set()
    for m in re.finditer(r'^#\[unsafe\(no_mangle\)\]\npub extern "C" fn .*?^\{', text, re.S | re.M):
        parameters, _, clauses = m.group(0).partition(')')
        clauses = re.sub(r'\b(requires|ensures)\b(\*?) \w+ \{', r'\1\2 {', clauses)
        names = set(re.findall(r'(\w+):', parameters))
        found |= resolve(clauses, {name: at for name, at in uses.items() if name not in names}, None)
    return found


def listed():
    """The theorems that THEOREMS.md lists: names in the second column that a file of proofs/ in the third defines."""
    found, unknown = set(), []
    for line in read('docs/THEOREMS.md').split('\n'):
        cells = [c.strip() for c in line.strip().strip('|').split('|')]
        if len(cells) != 3 or cells[0] in ('promise', '---'):
            continue
        files, last = [], ''
        for item in cells[2].split(','):
            item = item.strip()
            m = re.match(r'([a-z_]+)/(specs|proofs|src)(?:/(\S+))?$', item)
            if m:
                last = m.group(1)
                names = [m.group(3)] if m.group(3) else [n[:-5] for n in sorted(os.listdir(os.path.join(TOP, 'crates', last, 'proofs'))) if n.endswith('.antt')]
                files += ['crates/%s/%s/%s.antt' % (last, m.group(2), n) for n in names if not n.endswith('.rt')]
            elif re.match(r'[A-Z]\w*$', item):
                files.append('crates/%s/proofs/%s.antt' % (last, item))
        for quoted in re.findall(r'`([^`]+)`', cells[1]):
            name = quoted.split('.')[-1]
            at = [place(f, name) for f in files if module(f) and '/proofs/' in f]
            found |= {a for a in at if a}
            if '-' in name and not any(at) and not any(place(f, name) for f in files):
                unknown.append('%s: no file of its row has it' % name)
    return found, unknown


def reading_list():
    theorems, unknown = listed()
    todo = list(exported())
    for path, name in theorems:
        m = module(path)
        todo += resolve(m.defs[name][1], m.uses, path)
    seen = set()
    while todo:
        at = todo.pop()
        if at in seen or at in theorems:
            continue
        seen.add(at)
        m = module(at[0])
        todo += resolve(m.defs[at[1]][0], m.uses, at[0])
    return seen, unknown


def table(seen):
    out = ['| file | lines | definitions |', '|---|---|---|']
    total = 0
    for path in sorted({p for p, _ in seen}, key=order):
        names = [n for n in module(path).defs if (path, n) in seen]
        lines = sum(module(path).defs[n][2] for n in names)
        total += lines
        out.append('| %s | %d | %s |' % (path[len('crates/'):-len('.antt')], lines, ', '.join('`%s`' % n for n in names)))
    return '\n'.join(out) + '\n\n%d definitions in %d files, %d lines.' % (len(seen), len({p for p, _ in seen}), total)


def order(path):
    crates = [line.split(':')[0].split()[0] for line in read('crates.txt').split('\n') if ':' in line and not line.startswith('#')]
    return (crates.index(path.split('/')[1]), path)


def main():
    seen, unknown = reading_list()
    text = table(seen)
    start, end = '<!-- reading list: tools/reading_list.py --write -->\n', '\n<!-- end of the reading list -->'
    index = read('docs/THEOREMS.md')
    if '--write' in sys.argv:
        before, _, rest = index.partition(start)
        with open(os.path.join(TOP, 'docs/THEOREMS.md'), 'w', encoding='utf-8') as file:
            file.write(before + start + text + end + rest.partition(end)[2])
        return 0
    if '--check' not in sys.argv:
        print(text)
        return 0
    faults = unknown + ['%s stands in %s' % (n, p) for p, n in sorted(seen) if '/proofs/' in p]
    if start + text + end not in index:
        faults.append('docs/THEOREMS.md has another reading list: tools/reading_list.py --write')
    for crate in sorted(os.listdir(os.path.join(TOP, 'crates'))):
        folder = os.path.join('crates', crate, 'specs')
        if not os.path.isdir(os.path.join(TOP, folder)):
            continue
        for name in sorted(os.listdir(os.path.join(TOP, folder))):
            path = '%s/%s' % (folder, name)
            if name == 'Lib.antt':
                continue
            if any('/proofs/' in (module_path(used) or '') for used in re.findall(r'^(?:unfoldable )?(?:pub )?use (\S+?)(?:\.\{| |$)', read(path), re.M)):
                faults.append('%s cites proofs/' % path)
            internal = read(path).split('\n')[0].startswith('-- ' + INTERNAL)
            reached = any(p == path for p, _ in seen)
            if reached == internal:
                faults.append('%s: %s' % (path, 'is reached, and its first line says internal' if reached else 'is not reached: its first line must begin with "%s"' % INTERNAL))
    for fault in faults:
        print(fault)
    return 1 if faults else 0


if __name__ == '__main__':
    sys.exit(main())
