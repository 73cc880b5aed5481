#!/usr/bin/env python3
"""The places that docs/DESIGN-PASS.md counts, point by point, in the sources of a tree.

    tools/count_places.py [--list] [FOLDER]     the counts of FOLDER (default: this repository); --list names the places too
"""
import collections
import pathlib
import re
import sys

COUNTED = [
    ('1', 'a flag beside the value that it speaks of', r'^    pub (?:ok|in_range|goals): bool'),
    ('1', 'an answer beside the value that it speaks of', r'^    pub answer: Answer'),
    ('1', 'a number for a kind, held or handed over', r'\b(?:kind|check|asked): u8\b|^(?:pub )?const [A-Z]+: u8 ='),
    ('1', 'a function under the calls that answers with the numbers of a refusal', r'^(?:pub )?fn (?!nuzzlefleece_)[^{]*?-> Answer$'),
    ('1', 'a number that stands for none, as the comment says', r'^// .*(?:\b64 for none|, or (?:n|24|32|the count|the job count|how many batches there are)\b|, or 24 |24 for none|65,535 (?:where there|is the high))'),
    ('3', 'a while loop over a word, or counted by hand', r'^ *while (?:[a-z]+ != 0|i < n) '),
    ('3', 'another while loop, or a loop', r'^ *(?:while (?![a-z]+ != 0|i < n)|loop \{)'),
    ('3', 'a for over a range of indices', r'^ *for \w+ in .*\.\.'),
    ('4', 'a widening function of the repository', r'\b(?:entries::|jobs::)?wide\(|\btimes::job\(|\bjob\(pairs'),
    ('4', 'a conversion, an equality or an order by hand', r'^(?:pub )?fn (?:numbers|told|batched|reason_of|no_reason|same|higher|sooner|later|nearer|further|longer|earlier|turned)\b'),
    ('4', 'an `as` (those that narrow stay)', r'\bas (?:u8|u16|u32|u64|usize|i64|i16)\b'),
    ('5', 'a table and its numbers as two parameters', r'\bl: &?Loaded,\s*(?:q: &?Ask|w: Watch|o: Overruns|q: Question|s: Save)'),
    ('5', 'the fact `Given` of a plan in a contract', r'requires \{[^}]*\bGiven\b'),
    ('5', 'the search\'s state and tables as two parameters', r'\bs: &(?:mut )?State,[^)]*t: &Tables'),
    ('6', 'a flat array of places with offsets', r'^pub type \w+ = \[u\d+; \d+\];'),
    ('6', 'an array with a length or a count beside it', r'^    pub count: usize|^    pub lent: usize'),
    ('6', 'tables side by side as parameters', r'\bchannels: &\[u8\],\s*levels: &\[i16\],\s*facts: &\[u8\]'),
    ('7', 'a number or a flag that picks the step to run', r'^(?:pub )?fn \w+\([^)]*\b(?:check: u8|kind: u8|sure: bool|adds: bool)'),
]

WORDS = set('as bool break const else enum f64 false fn for if impl in let loop match mut pub return struct true use while Some None Ok Err'.split())


def sources(root):
    return [(path, path.read_text()) for path in sorted(root.glob('crates/*/src/*.rt'))]


def shape(text):
    """A function's text with each name and number by its first place, so that two that differ in names, types and sizes alone have one shape."""
    names = {}
    tokens = re.findall(r'[A-Za-z_]\w*(?:::[A-Za-z_]\w*)*|\d[\w.]*|\S', text)
    return ' '.join(t if t in WORDS or not re.match(r'[\w]', t) else names.setdefault(t, f'#{len(names)}') for t in tokens)


def functions(text):
    """Each function at the margin as (its name, its body)."""
    name, body = None, None
    for line in text.splitlines():
        begins = re.match(r'(?:pub )?(?:extern "C" )?fn (\w+)', line)
        if begins:
            name = begins.group(1)
        if name and body is None and line.endswith('{'):
            body = []
        elif name and line == '}':
            yield name, '\n'.join(body)
            name, body = None, None
        elif body is not None:
            body.append(line)


def twins(files):
    shapes = collections.defaultdict(list)
    for path, text in files:
        for name, body in functions(text):
            if body.count('\n') >= 2:
                shapes[shape(body)].append(f'{path.parts[-3]}::{name}')
    return [names for names in shapes.values() if len(names) > 1]


def main(words):
    listed = '--list' in words
    folders = [w for w in words if w != '--list']
    root = pathlib.Path(folders[0] if folders else pathlib.Path(__file__).resolve().parents[1])
    files = sources(root)
    for point, what, pattern in COUNTED:
        places = [(path, text[:m.start()].count('\n') + 1, m.group(0).strip()) for path, text in files for m in re.finditer(pattern, text, re.M)]
        print(f'{point}  {len(places):4}  {what}')
        if listed:
            for path, line, text in places:
                print(f'         {path.parts[-3]}:{line}: {text.splitlines()[0][:90]}')
    groups = twins(files)
    print(f'2  {sum(map(len, groups)):4}  functions of three lines or more whose bodies have one shape with another\'s ({len(groups)} shapes)')
    if listed:
        for names in groups:
            print('         ' + ', '.join(names))
    answers = list(root.glob('crates/*/proofs/**/Answers.antt'))
    invariants = list(root.glob('crates/*/proofs/**/Invariants.antt'))
    print(f'8  {len(answers):4}  files of answers, {len(invariants)} of invariants')
    return 0


if __name__ == '__main__':
    sys.exit(main(sys.argv[1:]))
