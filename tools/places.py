#!/usr/bin/env python3
"""The places in crates/*/src of forms of the older language, by the points of docs/DESIGN-PASS.md.

  tools/places.py                  each point: its count, and a line `crate/function: what` for each place
  tools/places.py 3 5              these points alone
  tools/places.py --counts         the counts alone
  tools/places.py --at COMMIT      of a commit, and not of the files as they stand
  tools/places.py --gone           the places found by reading that are not there any more

A kind is found by a pattern, or by reading. Those found by reading are the lists below: each names a function, type or constant and a mark; the
place counts as long as it is there and the mark is in its text. A group of twins counts as long as two of its members are there. The kinds found by reading have a star."""
import pathlib
import re
import subprocess
import sys

TOP = pathlib.Path(__file__).resolve().parent.parent
START = re.compile(r'^(\s*)(?:pub )?(?:extern "C" )?(?:(fn) (\w+)|(struct|enum|impl) (\w+)|(const) (\w+))')


class Item:
    """A function, type or constant: its signature, its contract and its body, without comments."""

    def __init__(self, crate, kind, name, text):
        self.crate, self.kind, self.name, self.text = crate, kind, name, text
        head, self.body = text, ''
        if kind == 'fn':
            split = re.search(r'(?m)^\s*\{$|\{$', text)
            head, self.body = text[:split.start()], text[split.end():]
        parts = re.split(r'\n\s+(?=requires|ensures)', head, maxsplit=1)
        self.sig = ' '.join(parts[0].split())
        self.contract = ' '.join(parts[1].split()) if len(parts) > 1 else ''
        inner = re.search(r'\((.*)\)', self.sig)
        self.params = dict(re.findall(r"(\w+): ((?:&(?:'a )?(?:mut )?)?[^,\[]*(?:\[[^\]]*\][^,\]]*\]?)?)", inner.group(1))) if inner else {}
        result = re.search(r'\) -> (.+)$', self.sig)
        self.result = result.group(1).strip() if result else ''

    def path(self):
        return '%s/%s' % (self.crate, self.name)


def texts(commit):
    """The crate and the text of each source file."""
    if commit:
        listed = subprocess.run(['git', 'ls-tree', '-r', '--name-only', commit, 'crates'], cwd=TOP, capture_output=True, text=True, check=True).stdout
        for path in listed.split():
            if re.match(r'crates/\w+/src/.*\.rt$', path):
                yield path.split('/')[1], subprocess.run(['git', 'show', '%s:%s' % (commit, path)], cwd=TOP, capture_output=True, check=True).stdout.decode('utf-8')
    else:
        for path in sorted(TOP.glob('crates/*/src/**/*.rt')):
            yield path.relative_to(TOP).parts[1], path.read_text(encoding='utf-8')


def items(commit):
    """The items of all crates; those of an impl by their own names."""
    for crate, text in texts(commit):
        lines = [re.sub(r'\s*//.*$', '', line) for line in text.split('\n')]
        for i, line in enumerate(lines):
            m = START.match(line)
            if not m or m.group(4) == 'impl':
                continue
            kind = m.group(2) or m.group(4) or m.group(6)
            name = m.group(3) or m.group(5) or m.group(7)
            end = i
            if not line.rstrip().endswith(';') and not (kind == 'fn' and re.search(r'\{.*\}$', line)):
                last = m.group(1) + (']' if kind == 'const' else '}')
                end = next(j for j in range(i, len(lines)) if lines[j].startswith(last) and (j > i))
            yield Item(crate, kind, name, '\n'.join(lines[i:end + 1]))


# ---- found by reading: point, kind, and for each place its path, a mark, and what it is

READ = [
    (1, 'a flag, or a number that stands for one, with a value beside it', [
        ('words/Signed', 'negative: bool', 'the sign as a flag beside the magnitude'),
        ('rounds/Found', 'bool', 'a flag beside the set: whether the set is all'),
        ('listing/Piece', 'size: usize', 'a size of 0 says that the text has ended'),
        ('listing/Printer', 'Accepted', 'a refusal or a bundle, beside the number of the next piece'),
        ('streams/Input', 'whole', 'a count beside a result; both are needed where a read fails'),
    ]),
    (1, 'a value that stands for none, for a refusal or for the end', [
        ('fetch/find_file', '-> usize', 'the number of files for none'),
        ('fetch/holder_fault', 'f < files', 'asks for that number'),
        ('fetch/fetch_body', r'\.\.0\]', 'an empty part for a refusal'),
        ('comparison/NONE', '255', '255 for none'),
        ('decoder/clear_positions', 'NONE', '255 for none in the output'),
        ('totals/locate', 'file: 0', 'file 0 where there is a refusal'),
        ('decoder/search', 'wrong: 0', 'an empty set beside a refusal'),
        ('bundle/refused', 'k: 0', 'a heading of zeros beside a refusal'),
        ('bundle/holder_ok', 'prev', 'a holder 0 for none before'),
        ('bundle/rises', 'p == 0', 'a place 0 for no number before'),
        ('bundle/jobs_fault', 'prev: u64 = 0', 'a number 0 for none before'),
        ('bundle/files_within', 'prev: usize = 0', 'a holder 0 for none before; `most` 1 says that one file is asked for'),
        ('sharing/rising', 'prev: u64 = 0', 'a holder 0 for none before'),
        ('listing/put_piece', 'return 0;', 'a size of 0 past the last piece'),
        ('listing/next', 'size == 0', 'asks for that size'),
        ('open/print', 'size == 0', 'asks for that size'),
        ('cases/find', 'text.len', "the text's end for none"),
        ('cases/past_bar', 'bar == line.len', 'asks for that end'),
        ('ring/inverse_of', 'reduce', 'zero where there is no inverse; it is so by definition'),
        ('formats/cut', "b'?'", 'a question mark for bytes that are not there'),
    ]),
    (1, 'a kind as a letter of the input', [
        ('edges/case', r"line\[0\] == b'r'", 'asks for r, and hands the letter on'),
        ('openings/case', r'line\[0\]', 'hands the letter on'),
        ('formats/line', "kind == b's'", 'asks for s, and hands the letter on'),
    ]),
    (2, 'arrays and lines written out', [
        ('ring/shift', 'r\\[4\\]', 'six words, one place up, in two forms'),
        ('sliced/point', 'i5 % 2', 'six bits of a number'),
        ('labelled/lens_job', 'words\\[3\\]', 'four words into four fields'),
        ('labelled/put_words', 'out\\[3\\]', 'four fields into four words'),
        ('labelled/scan', 'd.end', 'five lines'),
        ('labelled/put_job', 'job.axis', 'five lines'),
        ('words/two_to', '32', 'the powers of two as a table'),
    ]),
    (4, 'equality', [
        ('bundle/same_params', 'a.k != b.k', 'field by field'),
        ('bundle/belong', 'a.archive != b.archive', 'field by field'),
        ('labelled/same_text', r'a\[i\] != b\[i\]', 'byte by byte'),
    ]),
    (4, 'order', [
        ('writer/strictly_rising', 'i - 1', 'each number with the one before'),
        ('sharing/rising', 'prev', 'each holder with the one before'),
    ]),
    (4, 'copying and filling, an entry at a time', [
        ('describe/copy_words', 'while', 'words to words'),
        ('writer/put_bytes', 'while', 'bytes to bytes'),
        ('decimal/put_bytes', 'while', 'bytes to bytes'),
        ('ring/load_by', 'while', 'words to an element'),
        ('ring/store_by', 'while', 'an element to words'),
        ('sharing/load_holders', 'while', 'holders to an array'),
        ('rounds/copy_rows', 'while', 'rows to rows'),
        ('rounds/clear_rows', 'while', 'rows of zeros'),
        ('decoder/clear_positions', 'while', 'bytes of 255'),
        ('fetch/fetch_part', r'part\[1\]', 'two words to an output, one by one'),
        ('desk/start_lent', r'desk\[1\]', 'the same'),
    ]),
    (4, 'conversion', [
        ('comparison/position', 'match c', "a comparison's number in an output"),
        ('records/wide', 'as u64', 'a byte as a word'),
        ('records/number', '256 \\*', 'a number from w bytes'),
        ('records/pair_at', '256 \\*', 'a number from two bytes'),
        ('records/half_at', '256 \\*', 'a number from four bytes'),
        ('records/word_at', '4294967296', 'a word from eight bytes'),
        ('writer/put_number', '% 256', 'a number as w bytes'),
        ('records/heading_at', 'byte_at', 'a heading from bytes'),
        ('writer/put_params', 'put_number', 'parameters as bytes'),
        ('writer/put_heading', 'put_number', 'a heading as bytes'),
        ('words/read_signed', 'sub', 'a word as sign and magnitude'),
        ('words/twos_complement', '0xffff', "sign and magnitude in two's complement"),
        ('labelled/word_of', 'sub', 'sign and magnitude as a word'),
        ('labelled/lens_job', 'read_signed', 'a job from words'),
        ('labelled/put_words', 'word_of', 'a job as words'),
        ('desk/open_lent', r'desk\[1\]', 'a record of two words as the two numbers of a desk'),
        ('cases/params', 'number', 'parameters from the fields of a line'),
        ('cases/digit', '48', 'a digit as a number'),
        ('cases/number', 'digit', 'digits as a number'),
        ('formats/nibble', "b'a'", 'a hexadecimal digit as a number'),
        ('formats/digit', '% 10', "a refusal's number as a digit"),
    ]),
    (4, 'other printing', [
        ('edges/reading', 'b"-"', 'sign and magnitude by hand'),
        ('formats/print', 'write_all', 'a byte'),
        ('cases/print_number', 'write!', 'a space and a number; by `write!` already'),
    ]),
    (6, 'a buffer with a length beside it', [
        ('formats/Case', 'size', '512 bytes and how many count'),
        ('formats/changed', 'n: usize', 'the same, taken apart'),
        ('formats/changes', 'n: usize', 'the same'),
        ('formats/all_changes', 'n: usize', 'the same'),
        ('formats/cut', 'n: usize', 'the same'),
        ('formats/answer_first', 'n: usize', 'the same'),
        ('formats/line', 'case.size', 'the same'),
        ('formats/main', r'space\[\.\.n\]', 'what was read, and how much'),
        ('edges/main', r'space\[\.\.n\]', 'the same'),
        ('openings/main', r'space\[\.\.n\]', 'the same'),
        ('edges/case', r'a\[\.\.m\]', 'three lists and their lengths'),
        ('openings/case', r'a\[\.\.m\]', 'the same'),
        ('cases/numbers', r'out\[n\]', 'fills a list and gives the length'),
        ('cases/read_full', 'count', 'fills a buffer and gives the length'),
        ('streams/read_input', 'count', 'the same'),
        ('open/main', 'input.count', 'what was read, and how much'),
        ('jobtext/main', 'input.count', 'the same'),
        ('mend/main', 'input.count', 'the same'),
        ('labelled/is_text_of', r'room\[\.\.n\]', 'a text in a room, and its length'),
        ('labelled/text_size', 'ROOM', 'the same'),
        ('labelled/write_text', r'room\[\.\.n\]', 'the same'),
        ('open/print', r'line\[\.\.size\]', 'a piece in a room, and its length'),
        ('jobtext/print', r'text\[\.\.size\]', 'the same'),
        ('mend/print', r'text\[\.\.size\]', 'the same'),
    ]),
    (6, 'a flat list cut into elements by counting', [
        ('sharing/share_by', 'at -= d', 'coefficients, from the last'),
        ('sharing/write_shares', 'at \\+= p.d', 'shares'),
        ('sharing/load_shares', 'i \\* d', 'shares'),
        ('writer/put_jobs', 'p \\* d', 'words'),
        ('writer/put_words', 'from \\+ i', 'words'),
        ('fetch/load_words', 'here', 'words of eight bytes'),
        ('totals/add_words', 'here', 'words of eight bytes, by twos'),
        ('totals/add_jobs', 'here', 'jobs of one size'),
        ('bundle/jobs_fault', 'here', 'jobs of one size, in two files at once'),
        ('fetch/find_file', 'at \\+= size', 'files of one size'),
        ('formats/decode', 'i \\+= 2', 'two digits for a byte'),
    ]),
    (6, 'a search by hand', [
        ('fetch/find_file', 'return f', 'the file of a holder'),
        ('labelled/scan_line', "c == b'\\\\n'", 'the end of a line'),
        ('formats/run', "b'\\\\n'", 'the lines of a text, cut by hand; edges and openings use `split`'),
        ('cases/field_start', 'past_bar', 'the fields of a line'),
        ('cases/numbers', "b' '", 'the numbers of a field'),
    ]),
    (6, 'a set in a word, walked by hand', [
        ('text/put_holders', 'trailing_zeros', 'the members, rising'),
        ('text/put_changes', 'trailing_zeros', 'the same'),
        ('decoder/lowest_bits', 'wrong >>', 'whether it has a member'),
        ('decoder/drop_wrong', 'w >>', 'the same'),
        ('decoder/copy_others', 'w >>', 'the same'),
        ('mending/names', 'wrong >>', 'the same'),
        ('level/holder_set', 'lanes >>', 'the same, and a set made'),
        ('level/trust', 'trusted >>', 'the same'),
        ('level/zero_at', '>> i', 'the same'),
        ('rounds/compare', '1u64 <<', 'a set made'),
        ('decoder/wide_by', '1u64 <<', 'a set made'),
    ]),
    (7, 'a switch on which step to run', [
        ('edges/call', 'arithmetic::multiply', 'which call, by a letter'),
        ('edges/case', "b'r'", 'a reading or a call, by a letter'),
        ('openings/answer', 'deal', 'dealing or opening, by a letter'),
        ('formats/answer', 'match kind', 'which answer, by a letter'),
        ('formats/line', "b's'", 'one answer more, by a letter'),
        ('level/step', 'match l', 'which pair is multiplied: two arms that differ in the order of their arguments'),
        ('decoder/decode', 'narrow', 'which search, by a flag that the caller works out'),
        ('bundle/files_within', 'most', 'one file or many, by a number'),
        ('listing/put_piece', 'i == 0', 'head, refusal, line or nothing, by the number of the piece'),
        ('mend/mend', 'has_argument', 'whether a file is made'),
        ('describe/read_step', 'match here', 'what is handed out, by what was read'),
    ]),
    (7, 'twins that differ in one step, which could be handed on', [
        ('arithmetic/add', 'ring::sum', 'add, multiply, invert: what is stored where nothing is refused'),
        ('ring/sum', 'words::add', 'sum, difference: what is done with two words'),
        ('sliced/slice', 'prepend', 'slice, points: what is put into a lane'),
        ('decoder/wide_by', '1u64 <<', '`level::holder_set` and `rounds::compare` with it: the test of a share'),
        ('archive/load_place', 'seen', 'load_place, load_run: what is read of a file'),
        ('totals/cut_words', 'low_bits', 'cut_words, negate: what becomes of a word'),
        ('text/put_holders', 'trailing_zeros', 'put_holders, put_changes: what is written of a member'),
        ('labelled/put_whole', 'put_signed', 'put_whole, put_fixed: how the number is written'),
        ('open/print', 'write_text', 'the three programs that print: which piece comes next'),
    ]),
]

# Twins: what they have in common, how they differ, and who they are.
TWINS = [
    ('the value of a polynomial in rows', 'rows by value or lent', 'polynomial/eval polynomial/eval_lent'),
    ("Horner's rule at a point", 'd 4 in a function of its own', 'polynomial/horner polynomial/horner_of_four'),
    ("Horner's rule at a point", 'd 4 in a function of its own', 'sharing/share_by sharing/share_of_four'),
    ("Horner's rule at a point", 'rows or a flat list', 'polynomial/horner sharing/share_by'),
    ('two elements put together word by word', 'sum or difference', 'ring/sum ring/difference'),
    ('X times an element', 'words or bit slices', 'ring/shift sliced/shift'),
    ('a multiple added', 'words or bit slices', 'ring/add_scaled sliced/add_scaled'),
    ('a multiple added', 'any factor, or 0 and 1', 'ring/add_scaled ring/add_picked'),
    ("a product by Horner's rule", 'words or bit slices', 'ring/horner_by_words sliced/times_by'),
    ('lanes put together', 'bits of shares or points of holders', 'sliced/slice sliced/points'),
    ('two words of k bits put together', 'sum, difference or product', 'words/add words/sub words/mul'),
    ('an element out of a list', 'of words or of bytes', 'ring/load_by fetch/load_words'),
    ('an element into a list', 'of words or of bytes', 'ring/store_by writer/put_words'),
    ('a number from bytes', '1, 2, 4, 8 or w bytes', 'records/byte_at records/pair_at records/half_at records/word_at records/number'),
    ('a word from bytes', 'one cuts the bytes first', 'records/word_at totals/load_word'),
    ('a copy into a part of a list', 'bytes or words, and whether the end is given', 'decimal/put_bytes writer/put_bytes describe/copy_words'),
    ('a list filled with one value', 'rows of zeros or bytes of 255', 'rounds/clear_rows decoder/clear_positions'),
    ('shares left out', 'in place or into other arrays', 'decoder/drop_wrong decoder/copy_others'),
    ('a round and what follows it', 'arrays of its own or lent ones', 'decoder/search decoder/search_lent'),
    ('a set of the holders of some shares', 'the test of a share', 'decoder/wide_by level/holder_set rounds/compare'),
    ('numbers that rise', 'with a bound or without', 'writer/strictly_rising sharing/rising'),
    ('the shares of all files', 'of a place or of a run', 'archive/load_place archive/load_run'),
    ('what is opened', 'a place or a run', 'archive/place_opening archive/run_opening'),
    ('a call that opens', 'a place or a run', 'archive/open_place archive/open_run'),
    ('the lengths of three outputs', 'after another length or alone', 'archive/outputs_fault sharing/lent_fault'),
    ('holders, rows and an opening', 'what is done with it', 'archive/open_accepted archive/open_run listing/put_line exporting/put_place mending/mend_place'),
    ('a piece of a text', 'whose text', 'listing/put_piece exporting/put_piece mending/put_piece'),
    ('a program that prints', 'whose pieces', 'open/print jobtext/print mend/print'),
    ('a program over an input', 'its name, and a second room', 'open/main jobtext/main mend/main'),
    ('a program over cases', 'no difference', 'edges/run openings/run'),
    ('a program over cases', 'no difference', 'edges/main openings/main formats/main'),
    ('a case of a line', 'how many fields', 'edges/case openings/case'),
    ('an input read whole', 'tried again or not', 'streams/read_input cases/read_full'),
    ('a part of a bundle by holder and place', 'the number, the part, or its place', 'fetch/fetch_body_fault fetch/fetch_body fetch/fetch_part'),
    ('a holder found in an accepted bundle', 'a place or a run', 'fetch/fetch_part totals/locate'),
    ('a total', 'stored or added', 'totals/total totals/add_total'),
    ('an opening through a desk', 'two numbers, a lent desk or two lent words', 'desk/open_by desk/open_at desk/open_lent'),
    ('a month begun', 'two numbers, a lent desk or two lent words', 'desk/start_by desk/start_at desk/start_lent'),
    ('a call on lent elements', 'the step between', 'arithmetic/add arithmetic/multiply arithmetic/invert'),
    ('the line of a job with a number', 'its end', 'text/put_declined_line text/put_kept'),
    ('the members of a set, rising', 'what is written of each', 'text/put_holders text/put_changes'),
    ('a label, a number, a line end', 'whole or hundredths', 'labelled/put_whole labelled/put_fixed'),
    ("a job's text in a room", 'its length or itself', 'labelled/text_size labelled/write_text'),
    ('k from 1 to 64', 'what else is asked', 'words/params_ok words/bits_ok edges/reading'),
    ('each word changed in place', 'cut or made negative', 'totals/cut_words totals/negate'),
    ('what is refused ahead of an opening', 'of a place or of a run', 'archive/accept_place archive/open_run'),
    ('a number with a count', 'what stands beside', 'desk/Stepped desk/Started'),
    ('a set or nothing', 'a flag besides', 'level/Level rounds/Found'),
]

# Point 5: facts, as patterns of contracts, and groups of parameters, as patterns of `name: type`.
FACTS = [
    ('1 ≤ k ≤ 64', r'1 ≤ [\w.]*\bk\) × \([\w.]*\bk ≤ 64'),
    ('2 ≤ d ≤ 6', r'2 ≤ [\w.]*\bd\) × \([\w.]*\bd ≤ 6'),
    ('d ≤ 6, and no less', r'(?<!\bd\) × )\([\w.]*\bd ≤ 6|requires \{ [\w.]*\bd ≤ 6'),
    ('low is the row of d', r'low ≡ held d \(lower d\)'),
    ('t ≤ 62 or 63', r'\bt ≤ 6[23]'),
    ('m ≤ 63', r'\bm ≤ 63'),
    ('len ≤ 62 or 64, n ≤ 64', r'\b(?:len|n) ≤ 6[24]'),
    ('a lane is below 64', r'\b[iv] < 64'),
    ('t + 1 + 2e ≤ m', r'suc t \+ 2 \* e ≤ m'),
    ('rows of six (Shaped)', r'\bShaped\b'),
    ('63 entries', r'length [\w.]+ ≡ 63'),
    ('holders within d (Holders)', r'\bHolders\b'),
    ('holders rise (Rising)', r'\bRising\b'),
    ('words in width (InWidth)', r'\bInWidth\b'),
    ('shares of d words (Sized)', r'\bSized\b'),
    ('holders rise to n (Ordered)', r'\bOrdered\b'),
    ('the polynomial goes through them (Through)', r'\bThrough\b'),
    ('the shares of the first m (shares_of)', r'\bshares_of\b'),
    ('the opening of the codeword', r'\bfrom_codeword\b'),
    ('the parameters are good', r'params_ok p ≡ true'),
    ('the bundle is accepted', r'bundle_fault bytes\.now ≡ 0'),
    ('h is its heading', r'h ≡ bundle_heading bytes\.now'),
    ('files is how many it has', r'files ≡ files_of bytes\.now'),
    ('f is one of its files', r'f < files_of bytes\.now'),
    ('it has the place', r'(?:place|p) < h\.jobs'),
    ('it has the run', r'a ≤ b\) × \(b ≤ h\.jobs'),
    ('accepted is what accepting gave', r'accepted ≡ accepted_'),
    ('a heading whose sizes are small', r'h\.params\.d ≤ 6\) × \(h\.jobs ≤ 1000'),
    ('what stays where there is a refusal (kept)', r'\bkept\b'),
    ('an opening into three outputs', r'secret_into.*wrong_into.*lowest_into'),
    ('an opening as a number, a set and rows (opening_in, wrong_of)', r'opening_in.*wrong_of'),
    ('written at `at`, and the position after', r'written at .*result ≡ at \+'),
    ('written from the start, and the length', r'written 0 .*result ≡ length'),
    ('room for what is written at `at`', r'\bat \+ [^≤]{1,60} ≤ length out\.old'),
    ('the bytes have what is read at `at`', r'\bat \+ [^≤]{1,60} ≤ length \w+\.now|\bat < length bytes\.now'),
    ('room for a line or a report', r'(?:line|report|text)_room ≤ length'),
    ('words in width, as a test', r'all_in_width k .*?≡ true'),
    ('base ≤ at ≤ length', r'base ≤ at\) × \(at ≤ length'),
    ('the output is mended so far', r'mended_to|output_at'),
    ('what a writer gets (Appends, AppendsStart)', r'\bAppends'),
    ('a list of the length of an element', r'length \w+\.(?:now|old) ≡ (?:[\w.]*\bd\b|4)'),
]
GROUPS = [
    ('bytes, h, files', [r'bytes: ', r'h: Heading', r'files: ']),
    ('bytes, h, f', [r'bytes: ', r'h: Heading', r'f: ']),
    ('h, and f or p or place', [r'h: Heading', r'(?:f|p|place): ']),
    ('a, b (a run)', [r'a: usize', r'b: usize']),
    ('k, d', [r'k: u64', r'd: usize']),
    ('k, d, n, t', [r'k: u64', r'd: usize', r'n: usize', r't: usize']),
    ('k, d, t', [r'k: u64', r'd: usize', r't: usize']),
    ('d, t', [r'd: usize', r't: usize']),
    ('m, holders, shares', [r'm: usize', r'(?:hs|holders): ', r'(?:ys|shares|rest): ']),
    ('holders, shares', [r'(?:hs|holders): ', r'(?:ys|shares|rest): ']),
    ('m, holders, shares, e', [r'm: usize', r'(?:hs|holders): ', r'(?:ys|shares|rest): ', r'e: u64']),
    ('shares, rows', [r'(?:ys|shares): ', r'rows: ']),
    ('rows, len', [r'[pq]: &(?:mut )?\[\[|p: \[\[', r'len: usize']),
    ('out, at', [r'out: &mut \[u8\]', r'at: usize']),
    ('bytes or words, at', [r'(?:bytes|text|s): &\[', r'at: usize', r'!out: ']),
    ('bytes, base, prev, at', [r'bytes: ', r'base: ', r'prev: ', r'at: ']),
    ('out, wrong, lowest', [r'out: ', r'wrong: &mut', r'lowest: ']),
    ('n, w, l (their lengths)', [r'n: usize', r'w: usize', r'l: usize']),
    ('bytes, place, out, wrong, lowest', [r'bytes: ', r'place: ', r'out: ', r'wrong: ', r'lowest: ']),
    ('bytes, holder, and a place or a run', [r'bytes: ', r'holder: usize', r'(?:place|p|a): usize']),
    ('p, a, b, out', [r'p: Params', r'a: &\[u64\]', r'b: &\[u64\]', r'out: ']),
    ('secret, coefficients', [r'secret: ', r'coefficients: ']),
    ('d, low', [r'd: usize', r'low: ']),
    ('d, xs', [r'd: usize', r'xs: ']),
    ('bytes, accepted', [r'bytes: ', r'accepted: Accepted']),
    ('bytes, opened, rows', [r'bytes: ', r'opened: ', r'rows: ']),
    ('words, from or at', [r'words: ', r'from: ']),
    ('numbers, words', [r'numbers: ', r'words: ']),
    ('number, words', [r'number: u64', r'words: ']),
    ('text or bytes, from, end', [r'text: ', r'from: ', r'end: ']),
    ('bytes, n (how many count)', [r'bytes: (?:\[u8; 512\]|&\[u8\]), n: usize']),
    ('to, p, two lists, out', [r'to: ', r'p: ', r'out: ']),
]

TITLES = {
    1: 'Numbers and flags for refusals, kinds and none',
    2: 'Twins',
    3: 'Loops that count an index by hand',
    4: 'Equality, order, copying, conversion and printing by hand',
    5: 'Facts and parameters that travel together',
    6: 'Buffers with lengths, parallel arrays, searches by hand',
    7: 'Switches on which step to run',
    8: 'Proofs of functions: files of answers and invariants',
}
RESULTS = 'Accepted|Opened|Located|Stepped|Started'
ENUMS = 'Read|Comparison|Level|Found|Lead'


def pattern_places(all_items):
    """Point, kind, path, what and how often, of the places that a pattern finds."""
    for x in all_items:
        p = x.path()
        if x.kind == 'struct' and re.search(r'\bfault: u8', x.text):
            yield 1, 'a type with a refusal as a number and a value beside it', p, 'fault: u8 beside other fields', 1
        if x.kind == 'enum':
            yield 1, 'an own enum', p, ' | '.join(re.findall(r'(?m)^    (\w+)', x.text)), 1
        if x.kind == 'const' and re.search(r'u8 = \d+;$', x.text) and x.crate == 'words':
            yield 1, "a refusal's number as a constant", p, x.text.split('= ')[1][:-1], 1
        if x.kind == 'const' and re.search(r'_KIND: u64|^const (?:RECORD|END)\b', x.text):
            yield 1, 'a kind as a number', p, 'a constant', 1
        if x.kind != 'fn':
            continue
        if x.result == 'u8' and (re.search(r'fault|unless|\bfirst\b', x.contract) or p == 'edges/call'):
            where = "returns a refusal's number, an exported C call" if x.crate == 'boundary' else "returns a refusal's number"
            yield 1, where, p, '-> u8', 1
        taken = re.search(r'\b(fault|ahead|state|n|a): u8', x.sig)
        if taken:
            yield 1, "takes a refusal's number", p, taken.group(0), 1
        if re.search(r'(?:^|\W)(?:%s)$' % RESULTS, x.result):
            yield 1, "returns a type with a refusal's number", p, '-> ' + x.result, 1
        if re.search(r'(?:^|\W)(?:%s)$' % ENUMS, x.result):
            yield 1, 'returns an own enum', p, '-> ' + x.result, 1
        tests = re.findall(r'(?:fault|refused|lengths|outcome)\s*[!=]= 0|\)\) != 0|\ba != 0', x.body)
        if tests:
            yield 1, "asks whether a refusal's number is 0", p, 'once' if len(tests) == 1 else '%d times' % len(tests), len(tests)
        kinds = re.search(r'\bkind: u(?:8|64)|\bname: u8', x.sig)
        if kinds:
            yield 1, 'a kind as a number', p, 'takes ' + kinds.group(0), 1
        if re.search(r'match d \{', x.body) and not p.endswith('two_to'):
            arm = re.search(r'\b2 => (\w+)', x.body)
            yield 2, 'code for each d, chosen by `match d`', p, arm.group(1) if arm else 'arms', 1
        if re.search(r'\w\[5\]', x.body):
            yield 2, 'six words written out', p, 'six words', 1
        for what, index in loops(x):
            yield 3, 'a loop that counts an index' if index else 'no index (not counted)', p, what, 1 if index else 0
        if x.result == 'usize' and re.search(r'\bwritten\b', x.contract):
            yield 4, 'printing into a lent buffer', p, 'gives the position after it' if 'at' in x.params else 'gives the length', 1
        steps = re.findall(r'return (?:true|false);', x.body)
        if x.result == 'bool' and steps and not re.search(r'\bwhile\b', x.body):
            yield 4, 'a test in steps, `return false` for and', p, 'once' if len(steps) == 1 else '%d times' % len(steps), 1
        casts = re.findall(r' as (?:u8|u64|usize)\b', x.body)
        if len(casts) >= 3:
            yield 4, 'three casts or more', p, '%d' % len(casts), 1
        if x.crate == 'boundary' and 'Params {' in x.body:
            yield 4, 'parameters put together from four numbers, an exported C call', p, 'Params { k, d, n, t }', 1
        sig = x.sig
        if re.search(r'\b(?:hs|holders): ', sig) and re.search(r'\b(?:ys|shares|rest): ', sig):
            yield 6, 'parallel arrays, holders and shares', p, 'and how many count' if re.search(r'\bm: usize', sig) else 'two lists', 1
        if re.search(r'\bnumbers: ', sig) and re.search(r'\bwords: ', sig):
            yield 6, 'parallel lists, numbers and words', p, 'd words for each number', 1
        if re.search(r'\b[pq]: (?:&(?:mut )?)?\[\[u64; 6\]; 64\]', sig) and re.search(r'\b(?:len|t|n): usize', sig):
            yield 6, 'rows and how many count', p, re.search(r'\b(len|t|n): usize', sig).group(1), 1


def loops(x):
    """Each loop: its head, and whether it counts an index."""
    lines = x.body.split('\n')
    for i, line in enumerate(lines):
        m = re.match(r'(\s*)(?:while (.*)|loop) \{$', line)
        if not m:
            continue
        end = next(j for j in range(i + 1, len(lines)) if lines[j] == m.group(1) + '}')
        inside = '\n'.join(lines[i + 1:end])
        steps = re.findall(r'\b(\w+) ([+-]=) (1|2|d|p\.d);', inside)
        head = ('while ' + m.group(2)) if m.group(2) else 'loop'
        named = [s for s in steps if not m.group(2) or re.search(r'\b%s\b' % s[0], m.group(2)) or s[0] in ('left', 'n', 'i')]
        named = [s for s in named if s[0] != 'tries']
        yield (head + (': %s %s %s' % named[0] if named else '')), bool(named)


def fact_places(all_items):
    functions = [x for x in all_items if x.kind == 'fn']
    for name, mark in FACTS:
        having = [x.path() for x in functions if re.search(mark, x.contract)]
        if len(having) >= 3:
            yield 5, 'a fact in three contracts or more', name, '%d functions: %s' % (len(having), by_crate(having)), 1
    for name, marks in GROUPS:
        having = [x.path() for x in functions if all(bool(re.search(r'\b(?:%s)' % m.lstrip('!'), x.sig)) != m.startswith('!') for m in marks)]
        if len(having) >= 3:
            yield 5, 'parameters that three functions or more take together', name, '%d functions: %s' % (len(having), by_crate(having)), 1


def by_crate(paths):
    """Paths by crate: `ring (sum, product); words (add)`."""
    grouped = {}
    for path in paths:
        crate, name = path.split('/')
        grouped.setdefault(crate, []).append(name)
    return '; '.join('%s (%s)' % (c, ', '.join(n)) for c, n in grouped.items())


def proof_places(commit):
    """Point 8: for each crate the files Answers.antt and Invariants.antt and their lines."""
    counts = {}
    if commit:
        listed = subprocess.run(['git', 'ls-tree', '-r', '--name-only', commit, 'crates'], cwd=TOP, capture_output=True, text=True, check=True).stdout.split()
        found = [(p, lambda p=p: subprocess.run(['git', 'show', '%s:%s' % (commit, p)], cwd=TOP, capture_output=True, check=True).stdout) for p in listed]
    else:
        found = [(str(p.relative_to(TOP)), p.read_bytes) for p in sorted(TOP.glob('crates/*/proofs/**/*.antt'))]
    for path, read in found:
        m = re.match(r'crates/(\w+)/proofs/.*?(Answers|Invariants)\.antt$', path)
        if m:
            at = counts.setdefault(m.group(1), {'Answers': [0, 0], 'Invariants': [0, 0]})[m.group(2)]
            at[0] += 1
            at[1] += read().count(b'\n')
    for crate, c in sorted(counts.items()):
        yield 8, 'answers and invariants by crate', crate, 'Answers %d files, %d lines; Invariants %d files, %d lines' % (*c['Answers'], *c['Invariants']), c['Answers'][0] + c['Invariants'][0]
    total = [sum(c[k][i] for c in counts.values()) for k in ('Answers', 'Invariants') for i in (0, 1)]
    yield 8, 'all crates (not counted again)', 'all', 'Answers %d files, %d lines; Invariants %d files, %d lines' % tuple(total), 0


def read_places(all_items, gone):
    here = {}
    for x in all_items:
        here[x.path()] = here.get(x.path(), '') + x.text
    for point, kind, listed in READ:
        for path, mark, what in listed:
            there = path in here and re.search(mark, here[path])
            if bool(there) != gone:
                yield point, kind + ' *', path, what, 1
    for common, differ, members in TWINS:
        names = members.split()
        there = [n for n in names if n in here]
        if (len(there) >= 2) != gone:
            yield 2, 'twins *', ', '.join(names if gone else there), '%s (%s)' % (common, differ), 1


def places(commit, gone=False):
    all_items = list(items(commit))
    if gone:
        return list(read_places(all_items, True))
    found = list(pattern_places(all_items)) + list(fact_places(all_items)) + list(read_places(all_items, False)) + list(proof_places(commit))
    return sorted(found, key=lambda place: place[0])


def main(args):
    commit = None
    if '--at' in args:
        i = args.index('--at')
        commit = args[i + 1]
        del args[i:i + 2]
    wanted = [int(a) for a in args if a.isdigit()] or sorted(TITLES)
    found = places(commit, '--gone' in args)
    for point in wanted:
        mine = [f for f in found if f[0] == point]
        print('%d. %s: %d' % (point, TITLES[point], sum(f[4] for f in mine)))
        for kind in dict.fromkeys(f[1] for f in mine):
            of_kind = [f for f in mine if f[1] == kind]
            print('  %s: %d' % (kind, sum(f[4] for f in of_kind) or len(of_kind)))
            if '--counts' not in args:
                for f in of_kind:
                    print('    %s: %s' % (f[2], f[3]))


if __name__ == '__main__':
    main(sys.argv[1:])
