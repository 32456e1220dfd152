#!/usr/bin/env python3
"""Tries the must-fail edits: each wrong answer is refused by itself, and because a fact no longer holds.

An edit (crates/CRATE/must-fail/LABEL.edit) may hold several wrong answers, each in another function, so that one check tries them all. Above each
stands a line `# NAME, in FUNCTION: the promise it breaks`; a wrong definition names no function and stands alone. `rt` asks that an edit as a whole
be refused, and keeps nothing of what it said. This checks each edit over what the crate's own check kept, as `rt must-fail` does, and asks of what
is said that the functions refused for their own sake, and not for that of one they call, are exactly those named; that each is refused by more than
a name which its proof cites and the edit took away; and that each exported call has two wrong answers at least.

Where a proof only cites names that are gone, as those of a condition that the edit changed, they are respelled as the kit says the new ones, and
the edit is tried again: what the proof says must then fail.

  tools/edits.py [CRATE..]    all crates, or these; the logs stay in target/must-fail, and one that is newer than all it was made from is not made
                              again. RT_JOBS checks at a time, or else one for each processor, at most four"""
import concurrent.futures
import difflib
import glob
import importlib.machinery
import importlib.util
import os
import re
import signal
import subprocess
import sys
import tempfile

sys.dont_write_bytecode = True
TOP = os.path.dirname(os.path.dirname(os.path.abspath(__file__)))
HEAD = re.compile(r'# (\w+)(?:, in ([\w:]+))?: \S')
VERDICT = re.compile(r'^fn \w+::(\S+): (.*)$', re.M)
ERROR = re.compile(r'^(?:\./)?(proofs/\S+?\.antt):\d+:\d+: error: (.*(?:\n  .*)*)', re.M)
# what an error says of a name that the edit took away, and of a lemma that was not looked at for one that fell
GONE = re.compile(r'has no field|is not in scope|has no `|is already declared')
WAITS = re.compile(r'\d+ declarations? that depends? on')
FALSE = 'allow values at which this goal is false'
EXPORTED = re.compile(r'#\[unsafe\(no_mangle\)\]\s+pub extern "C" fn (\w+)')


def read(path):
    with open(path, encoding='utf-8') as file:
        return file.read()


def kit():
    """The kit's own `rt`, which applies an edit and checks a copy of a crate with it; and the line that names the kit."""
    said = [subprocess.run(['rt', word], capture_output=True, text=True, check=True).stdout.strip() for word in ('doc', 'version')]
    loader = importlib.machinery.SourceFileLoader('rt_of_kit', os.path.join(os.path.dirname(said[0]), 'bin/rt'))
    made = importlib.util.module_from_spec(importlib.util.spec_from_loader('rt_of_kit', loader))
    loader.exec_module(made)
    return made, said[1]


def answers(edit):
    """The wrong answers of an edit, as pairs of name and function or None; a replacement without its line is a fault."""
    found, above = [], None
    for line in read(edit).splitlines():
        head = HEAD.match(line)
        if head:
            above = head.groups()
            found.append(above)
        elif line.startswith('old:') and above is None:
            raise ValueError('a replacement has no line that names it')
    named = [function for _, function in found if function]
    if not found or (len(found) > 1 and len(named) < len(found)) or len(set(named)) < len(named):
        raise ValueError('wrong answers that stand together are each in a function of their own')
    return found


def label(edit):
    return os.path.basename(edit)[:-len('.edit')]


def log_of(crate, edit):
    return os.path.join(TOP, 'target/must-fail', crate.name, label(edit) + '.log')


def is_new(crate, edit, version):
    """Whether the log of an edit is newer than all that it was made from, and of this kit."""
    log = log_of(crate, edit)
    made_from = [edit, os.path.abspath(__file__)] + [p for it in [crate, *crate.below()] for part in ('src', 'specs', 'proofs')
                          for p in glob.glob(os.path.join(it.folder, part, '**/*.*'), recursive=True)]
    return os.path.exists(log) and os.path.getmtime(log) > max(map(os.path.getmtime, made_from)) and read(log).startswith(version + '\n')


def is_proof_of(path, function):
    """Whether a file is of the proof of a function; that of one that calls itself stands in proofs/+FUNCTION."""
    return os.path.dirname(path).replace('+', '') == 'proofs/' + function.replace('::', '/')


def errors(log, function=None):
    """The errors in the proof of a function, or in all proofs: those that are by a missing name alone, and the others."""
    told = [text for path, text in ERROR.findall(log) if (function is None or is_proof_of(path, function)) and not WAITS.match(text)]
    return [text for text in told if GONE.search(text)], [text for text in told if not GONE.search(text)]


def is_by_name(log, function=None):
    """Whether nothing shows that a fact no longer holds, but that proofs cite names which are gone."""
    gone, others = errors(log, function)
    lines = log.split('\n')
    ends = [i for i, line in enumerate(lines) if re.match(r'fn \w+::%s: ' % re.escape(function or ''), line)]
    begins = [max([0] + [i for i in range(end) if re.match(r'(fn|struct|enum) ', lines[i])]) for end in ends]
    return bool(gone) and not others and not any(FALSE in line for a, b in zip(begins, ends) for line in lines[a:b])


def respelled(log, function, texts):
    """The texts with the names that the function's proof cites and that are gone spelled as those that the kit offers in their place."""
    out, pairs = {}, {}
    for told in errors(log, function)[0]:
        for old in set(re.findall(r'has no (?:field )?`([^`]+)`', told)):
            told += '\n'.join(re.findall(r'^help: `Goals` has no `%s`; .*$' % re.escape(old), log, re.M))
            offered = {a or b for a, b in re.findall(r'`([^`.\s]+)`|nearest: \.([^\s)]+)', told)}
            near = difflib.get_close_matches(old, offered - {old}, 1)
            if near:
                # what differs is the condition's own part of the name, which other names have too: k-lt1 of returns-then-k-lt1 and of if-k-lt1
                a, b = old.split('-'), near[0].split('-')
                at = min(next((i for i, (x, y) in enumerate(zip(a, b)) if x != y), 0), max(len(a) - 2, 0))
                pairs['-'.join(a[at:])] = '-'.join(b[at:])
    for path, text in texts.items():
        for old, new in pairs.items():
            text = re.sub(r"(?<![\w'])%s(?![\w'-])" % re.escape(old), new, text)
        if text != texts[path]:
            out[path] = text
    return out, pairs


def try_edit(rt, crate, edit, version):
    """Checks the crate with an edit, over what its own check kept, and leaves the log."""
    texts, why = rt.read_edit(edit, crate.folder)
    if why:
        raise ValueError('it cannot be applied: ' + why)
    own, head, functions = set(texts), version, {function for _, function in answers(edit) if function}
    for attempt in range(4):
        with tempfile.TemporaryDirectory(prefix='edits-') as room:
            rt.linked(os.path.join(crate.folder, 'out/incremental'), os.path.join(room, 'kept'))
            ran = rt.checked(crate, texts, ['--jobs', '1'], os.path.join(room, 'kept'))
            if ran.returncode == -signal.SIGKILL:
                # most likely for memory
                ran = rt.checked(crate, texts, ['--jobs', '1'], os.path.join(room, 'kept'))
        log = ran.stdout
        if ran.returncode != 1 or not log.rstrip('\n').split('\n')[-1].startswith('logic=not-proved'):
            raise ValueError('it is not refused' if ran.returncode == 0 else 'no verdict, status %d: %s' % (ran.returncode, log[:300]))
        unread = [line for line in log.split('\n') if rt.unread(line, own)]
        if unread:
            raise ValueError('the prover cannot read it: ' + unread[0][:300])
        changed = False
        for function in sorted(functions) if attempt < 3 else ():
            if not is_by_name(log, function):
                continue
            files = (os.path.relpath(p, crate.folder) for p in glob.glob(crate.folder + '/proofs/**/*.antt', recursive=True))
            proof = {p: texts.get(p) or read(os.path.join(crate.folder, p)) for p in files if is_proof_of(p, function)}
            again, pairs = respelled(log, function, proof)
            texts.update(again)
            changed = changed or bool(again)
            head += ''.join('\nin the proof of %s: %s for %s' % (function, new, old) for old, new in pairs.items())
        if not changed:
            break
    os.makedirs(os.path.dirname(log_of(crate, edit)), exist_ok=True)
    with open(log_of(crate, edit), 'w', encoding='utf-8') as file:
        file.write(head + '\n' + log)


def faults_of(crate, edit, wrong):
    log = read(log_of(crate, edit))
    verdicts = dict(VERDICT.findall(log))
    refused = {function for function, said in verdicts.items() if said.startswith(('not proved', 'no proof')) and 'it calls `' not in said}
    named = {function for _, function in wrong if function}
    where = '%s/%s: ' % (crate.name, label(edit))
    if named and refused != named:
        yield where + 'refused are %s, named %s' % (', '.join(sorted(refused)) or 'none', ', '.join(sorted(named)))
    for function in sorted(named & refused) or [None] * (not named):
        if is_by_name(log, function):
            yield where + '%s only by a missing name' % (function or 'refused')


def tried(rt, crate, version, pool):
    """Tries a crate's edits that have no log as they are now: for each edit its wrong answers, and the faults of it."""
    edits = sorted(glob.glob(os.path.join(crate.folder, 'must-fail/*.edit')))
    old = [edit for edit in edits if not is_new(crate, edit, version)]
    why = None
    if old:
        ran = subprocess.run(['rt', 'check'], cwd=crate.folder, stdout=subprocess.PIPE, stderr=subprocess.STDOUT, errors='replace')
        if ran.returncode:
            why = 'the crate itself is not proved'

    def one(edit):
        try:
            wrong = answers(edit)
            if why:
                raise ValueError(why)
            if edit in old:
                try_edit(rt, crate, edit, version)
            return wrong, list(faults_of(crate, edit, wrong))
        except (ValueError, OSError) as fault:
            return [], ['%s/%s: %s' % (crate.name, label(edit), fault)]

    return [pool.submit(one, edit) for edit in edits]


def main(chosen):
    rt, version = kit()
    os.chdir(TOP)
    rt.rtlib.guarded()
    crates = sorted(rt.rtlib.crates_below(TOP), key=lambda it: len(it.below()))
    unknown = set(chosen) - {it.name for it in crates}
    if unknown:
        sys.exit('edits: no crate %s' % ', '.join(sorted(unknown)))
    crates = [it for it in crates if not chosen or it.name in chosen]
    # one of them is a crate's own check, ahead of its edits
    number = int(os.environ.get('RT_JOBS') or min(4, os.cpu_count() or 1)) - 1
    faults, count, edits = [], 0, 0
    with concurrent.futures.ThreadPoolExecutor(max(number, 1)) as pool:
        results = [(crate, tried(rt, crate, version, pool)) for crate in crates]
        for crate, found in results:
            names, times = set(), {}
            for wrong, told in (it.result() for it in found):
                faults += told
                edits += bool(wrong)
                count += len(wrong)
                for name, function in wrong:
                    if name in names:
                        faults.append('%s: %s is the name of two' % (crate.name, name))
                    names.add(name)
                    times[function] = times.get(function, 0) + 1
            for source in glob.glob(os.path.join(crate.folder, 'src/*.rt')):
                faults += ['%s has fewer than two wrong answers' % call for call in EXPORTED.findall(read(source)) if times.get(call, 0) < 2]
    for fault in faults:
        print('edits: ' + fault)
    if faults:
        return 1
    print('edits: %d wrong answers in %d edits, each refused by itself' % (count, edits))
    return 0


if __name__ == '__main__':
    sys.exit(main(sys.argv[1:]))
