#!/usr/bin/env python3
"""The exported calls as C and Rust declare them, made from the lines `#[unsafe(no_mangle)] pub extern "C" fn` of crates/*/src.

  tools/bindings.py            C prototypes, and then Rust declarations
  tools/bindings.py --check    exit 1 if include/yikescanvas.h or rust/yikescanvas/src/ffi.rs declares other calls, or one with another result or with
                               parameters of another type, order or name, or if docs/REFERENCE.md does not name a call

A slice is a pointer and then its length in items. Layout and comments do not count."""
import os
import re
import sys

TOP = os.path.dirname(os.path.dirname(os.path.abspath(__file__)))
HEADER, FFI, REFERENCE = 'include/yikescanvas.h', 'rust/yikescanvas/src/ffi.rs', 'docs/REFERENCE.md'
C_TYPES = {'u8': 'uint8_t', 'u64': 'uint64_t', 'usize': 'size_t'}

# Parameters that callers know by another name: bytes are mostly a bundle, and `length` is a definition that contracts use.
NAMES = {'bytes': 'bundle', 'size': 'length'}
NAMES_OF_CALL = {('yikes_read', 'bytes'): 'bytes', ('yikes_text_size', 'size'): 'size'}


def read(path):
    with open(os.path.join(TOP, path), encoding='utf-8') as file:
        return file.read()


def sources():
    for crate in sorted(os.listdir(os.path.join(TOP, 'crates'))):
        for folder, _, names in sorted(os.walk(os.path.join(TOP, 'crates', crate, 'src'))):
            yield from (os.path.relpath(os.path.join(folder, n), TOP) for n in sorted(names) if n.endswith('.rt'))


def split(text):
    """Parameters, between commas; one may follow the last."""
    return [' '.join(p.split()) for p in text.split(',') if p.strip()]


def exported():
    """Each exported call: its name, and its result and parameters as pairs of a C type and a name."""
    calls = {}
    for path in sources():
        text = re.sub(r'//.*', '', read(path))
        for m in re.finditer(r'#\[unsafe\(no_mangle\)\]\s*pub extern "C" fn (\w+)\s*\(([^)]*)\)(?:\s*->\s*(\w+))?', text):
            call, parameters, result = m.groups()
            out = []
            for parameter in split(parameters):
                name, kind = (part.strip() for part in parameter.split(':'))
                name = NAMES_OF_CALL.get((call, name), NAMES.get(name, name))
                slice_of = re.match(r'&(mut )?\[(u8|u64|usize)\]$', kind)
                if slice_of:
                    out += [(('' if slice_of.group(1) else 'const ') + C_TYPES[slice_of.group(2)] + ' *', name), ('size_t', name + '_length')]
                elif kind in C_TYPES:
                    out.append((C_TYPES[kind], name))
                else:
                    sys.exit('%s: %s has a parameter of a type that is not known here: %s' % (path, call, kind))
            calls[call] = [(C_TYPES[result] if result else 'void', '')] + out
    return calls


def in_header():
    """The prototypes of the header, in the same form."""
    text = re.sub(r'/\*.*?\*/|//[^\n]*', ' ', read(HEADER), flags=re.S)
    text = re.sub(r'^\s*#.*(\\\n.*)*', '', text, flags=re.M)
    calls = {}
    for result, call, parameters in re.findall(r'(\w+)\s+(yikes_\w+)\s*\(([^)]*)\)\s*;', text):
        out = [(result, '')]
        for parameter in split(parameters):
            m = re.match(r'(.*?)(\*?) ?(\w+)$', parameter)
            out.append((m.group(1).strip() + (' *' if m.group(2) else ''), m.group(3)))
        calls[call] = [p for p in out if p != ('', 'void')]
    return calls


def in_rust():
    """The declarations of the Rust wrapper, in the same form."""
    text = re.sub(r'/\*.*?\*/|//[^\n]*', ' ', read(FFI), flags=re.S)
    types = dict(C_TYPES, c_uchar='uint8_t')
    calls = {}
    for call, parameters, result in re.findall(r'pub fn (\w+)\s*\(([^)]*)\)(?:\s*->\s*(\w+))?\s*;', text):
        out = [(types.get(result, result) if result else 'void', '')]
        for parameter in split(parameters):
            name, kind = (part.strip() for part in parameter.split(':'))
            m = re.match(r'\*(const|mut) (\w+)$', kind)
            if m:
                out.append((('const ' if m.group(1) == 'const' else '') + types.get(m.group(2), m.group(2)) + ' *', name))
            else:
                out.append((types.get(kind, kind), name))
        calls[call] = out
    return calls


def c_text(call, form):
    parameters = ', '.join(kind + ('' if kind.endswith('*') else ' ') + name for kind, name in form[1:])
    return '%s %s(%s);' % (form[0][0], call, parameters or 'void')


def rust_text(call, form):
    back = {c: r for r, c in C_TYPES.items()}

    def rust(kind):
        m = re.match(r'(const )?(\w+) \*$', kind)
        return '*%s %s' % ('const' if m.group(1) else 'mut', back[m.group(2)]) if m else back[kind]

    result = '' if form[0][0] == 'void' else ' -> ' + ('c_uchar' if form[0][0] == 'uint8_t' else back[form[0][0]])
    return '    pub fn %s(%s)%s;' % (call, ', '.join('%s: %s' % (name, rust(kind)) for kind, name in form[1:]), result)


def faults():
    right = exported()
    if not right:
        yield 'no exported call in crates/*/src'
    for path, declared in ((HEADER, in_header()), (FFI, in_rust())):
        for call in sorted(set(right) | set(declared)):
            if call not in declared:
                yield '%s does not declare %s: %s' % (path, call, c_text(call, right[call]))
            elif call not in right:
                yield '%s declares %s, which no crate exports' % (path, call)
            elif declared[call] != right[call]:
                yield '%s declares\n  %s\nwhere the crates have\n  %s' % (path, c_text(call, declared[call]), c_text(call, right[call]))
    named = set(re.findall(r'`(yikes_\w+)`', read(REFERENCE)))
    for call in sorted(set(right) - named):
        yield '%s does not name %s' % (REFERENCE, call)


def main():
    if '--check' in sys.argv:
        found = list(faults())
        print('\n'.join(found) if found else '%d calls' % len(exported()))
        return 1 if found else 0
    calls = exported()
    print('\n'.join(c_text(call, form) for call, form in calls.items()))
    print('\nextern "C" {\n' + '\n'.join(rust_text(call, form) for call, form in calls.items()) + '\n}')
    return 0


if __name__ == '__main__':
    sys.exit(main())
