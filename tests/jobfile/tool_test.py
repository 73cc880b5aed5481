#!/usr/bin/env python3
"""tools/jobfile: known bytes, the round trip, each error with its line, each warning, files tidied, batches named, and what cannot be read or
written. Last line: 'N passed, M failed'."""
import os
import random
import re
import shutil
import struct
import subprocess
import sys
import tempfile

sys.dont_write_bytecode = True
ROOT = os.path.join(os.path.dirname(os.path.abspath(__file__)), '../..')
sys.path.insert(0, os.path.join(ROOT, 'tests/calls'))
from draft import save_bytes
from held import answers_to
from tables import house
from tidies import drawn, tidy_call

TOOL = os.path.join(ROOT, 'tools/jobfile')
U = '''# P3: unpack, drench, warm, wash
facts packed unpacked drenched warm washed
open packed
goals drenched warm washed    # all three
bound 12

job unpack 4: packed -> unpacked - packed
job drench 2: unpacked -> drenched
job warm 8: unpacked -> warm -
job wash 3: unpacked -> washed - drenched
'''
U_FILE = (struct.pack('<QQQH6x', 1, 2, 1, 4) + struct.pack('<QQQH6x', 2, 4, 0, 2) + struct.pack('<QQQH6x', 2, 8, 0, 8)
          + struct.pack('<QQQH6x', 2, 16, 4, 3) + struct.pack('<QQHBBI', 1, 28, 12, 4, 5, 128))
SHOWN = '''facts f0 f1 f2 f3 f4
open f0
goals f2 f3 f4
bound 12
job j0 4: f0 -> f1 - f0
job j1 2: f1 -> f2
job j2 8: f1 -> f3
job j3 3: f1 -> f4 - f2
'''
# The same with warm released at 6; a release of 0 may be said too, and any zeros before a number.
LATE = U.replace('job warm 8:', 'job warm 8 release 6:')
LATE_FILE = U_FILE[:90] + b'\6' + U_FILE[91:]
LATE_SHOWN = SHOWN.replace('job j2 8:', 'job j2 8 release 6:')
ON_TIME = U.replace('job warm 8:', 'job warm 8 release 000:')
# The same under rule 2, which adds 128 to the atom count; rule 1 may be said too.
RULED = U.replace('bound 12', 'rule 02\nbound 12')
RULED_FILE = U_FILE[:-5] + b'\x85' + U_FILE[-4:]
RULED_SHOWN = SHOWN.replace('open', 'rule 2\nopen')
UNRULED = U.replace('bound 12', 'bound 12\nrule 1')
ERRORS = [
    ('bounds 3', 1, 'a line begins with'),
    ('\n\nfacts a a', 3, 'fact a is named twice'),
    ('facts 9lives', 1, 'is no name'),
    ('facts ' + ' '.join(f'a{n}' for n in range(65)), 1, 'a64 is one more than 64'),
    ('facts a\nopen b', 2, 'no fact is named b'),
    ('facts a\ngoals a a', 2, 'stands twice'),
    ('bound 1\nbound 1', 2, 'given twice'),
    ('bound', 1, 'takes one number'),
    ('bound 65536', 1, 'from 0 to 65535'),
    ('bound -1', 1, 'from 0 to 65535'),
    ('bound ' + '9' * 9999, 1, 'from 0 to 65535'),
    ('job a ' + '9' * 9999 + ': ->', 1, 'from 0 to 65535'),
    ('atoms 128', 1, 'from 0 to 127'),
    ('atoms 1\natoms 1', 2, 'given twice'),
    ('rule', 1, 'takes one number'),
    ('rule 1 2', 1, 'takes one number'),
    ('rule 0', 1, 'the rule is 1 or 2'),
    ('rule 3', 1, 'the rule is 1 or 2'),
    ('rule two', 1, 'the rule is 1 or 2'),
    ('rule 1\nrule 2', 2, 'given twice'),
    ('job', 1, 'a job is'),
    ('job a 3 ->', 1, 'a job is'),
    ('job a: ->', 1, 'a job is'),
    ('job a x: ->', 1, 'a duration is a number'),
    ('job a 3 release: ->', 1, 'a job is'),
    ('job a 3 6: ->', 1, 'a job is'),
    ('job a 3 later 6: ->', 1, 'a job is'),
    ('job a 3 release 6 7: ->', 1, 'a job is'),
    ('job a release 6: ->', 1, 'a job is'),
    ('job a 3 release x: ->', 1, 'a release is a number'),
    ('job a 3 release -1: ->', 1, 'a release is a number'),
    ('job a 3 release 65536: ->', 1, 'from 0 to 65535'),
    ('job 1 3: ->', 1, 'is no name'),
    ('job a 3: ->\njob a 3: ->', 2, 'job a is named twice'),
    ('facts p\njob a 3: p', 2, 'one -> stands'),
    ('facts p\njob a 3: p -> p -> p', 2, 'one -> stands'),
    ('facts p\njob a 3: p - p -> p', 2, 'lone -'),
    ('facts p\njob a 3: p -> p - p - p', 2, 'lone -'),
    ('facts p\njob a 3: q -> p', 2, 'no fact is named q'),
    ('\n'.join(f'job a{n} 1: ->' for n in range(256)), 256, 'one more than 255'),
    ('facts p\n# nothing else', 2, 'there is no bound'),
    ('', 0, 'there is no bound'),
]
BAD_FILES = [
    (U_FILE[-23:], 'fewer than a trailer'),
    (bytes(65537), 'more than 65536'),
    (bytes(1 << 17), 'more than 65536'),
    (U_FILE[:-4] + struct.pack('<I', 127), 'the distance 127'),
    (U_FILE[:-4] + struct.pack('<I', 129), 'the distance 129'),
    *((U_FILE[:at] + b'\1' + U_FILE[at + 1:], 'behind the release of job 2 are not zero') for at in range(92, 96)),
]
# What the planner will refuse, with the number and the place, 0 for none.
WARNED = [
    ('bound 5', 4, 0),
    ('facts a\natoms 65\nbound 5', 4, 0),
    ('rule 2\nbound 5', 4, 0),
    ('facts a\natoms 65\nrule 2\nbound 5', 4, 0),
    ('facts a\nbound 5\n' + '\n'.join(f'job a{n} 1: ->' for n in range(25)), 5, 0),
    ('facts a\nbound 5\njob b 1: ->\njob c 961: ->\njob d 0: ->', 6, 1),
    ('facts a\nbound 5\njob b 0: ->', 6, 0),
    ('facts a\nbound 5\njob b 0 release 2881: ->', 6, 0),
    ('facts a\nbound 5\njob b 1 release 2880: ->\njob c 1 release 2881: ->\njob d 1 release 65535: ->', 20, 1),
    ('facts a b\natoms 1\nbound 2881\njob c 1: b -> a - a\njob d 1 release 2881: ->\nopen b', 20, 1),
    ('facts a b\natoms 1\nbound 5\njob c 1: a ->\njob d 1: b ->\nopen b', 7, 1),
    ('facts a b\natoms 1\nbound 5\ngoals b', 7, 24),
    ('facts a b\natoms 1\nbound 5\nrule 2\ngoals b', 7, 24),
    ('facts a\nbound 2881\njob b 1: -> a - a', 8, 0),
    ('facts a\nbound 2881', 9, 0),
]
IN_ORDER = 'facts a\nbound 2880\n' + '\n'.join(f'job a{n} 960 release 2880: -> a' for n in range(24))
# The jobs behind an older save, with notes; what is left of it; and saves without jobs.
NOTED_SAVE = U_FILE[:-24] + b'notes' + U_FILE[-24:-4] + struct.pack('<I', 133)
NOTED = U_FILE + NOTED_SAVE
NO_JOBS = struct.pack('<QQHBBI', 1, 1, 0, 0, 1, 0)
# A file, what is left of it when it is tidied, and what is said.
TIDIED = [
    (NOTED, NOTED_SAVE, b'157 bytes, 309 before\n'),
    (U_FILE * 431, U_FILE, b'152 bytes, 65512 before\n'),
    (bytes(65384) + U_FILE, U_FILE, b'152 bytes, 65536 before\n'),
    (b'x' + RULED_FILE, RULED_FILE, b'152 bytes, 153 before\n'),
    (U_FILE + NO_JOBS, NO_JOBS, b'24 bytes, 176 before\n'),
    (NOTED_SAVE, NOTED_SAVE, b'157 bytes, 157 before\n'),
]
# The groups of batches, a bound, and the text of both: no batches, one, four, and some of which none holds the bay.
BATCHES = [
    ('', 0, '''facts bay
open bay
goals
bound 0
'''),
    ('2', 17, '''facts bay a1-done a2-done a3-done
open bay
goals a3-done
bound 17

job a1 6: -> a1-done
job a2 3: a1-done bay -> a2-done - bay
job a2-clear 1: a2-done -> bay
job a3 8: a2-done -> a3-done
'''),
    ('11 1 3 1', 2880, '''facts bay a1-done b1-done b2-done c1-done c2-done d1-done d2-done
open bay
goals a1-done b2-done c2-done d2-done
bound 2880

job a1 96: -> a1-done
job b1 4: -> b1-done
job b2 3: b1-done bay -> b2-done - bay
job b2-clear 1: b2-done -> bay
job c1 4: -> c1-done
job c2 12: c1-done -> c2-done
job d1 4: -> d1-done
job d2 3: d1-done bay -> d2-done - bay
job d2-clear 1: d2-done -> bay
'''),
    ('3 0', 5, '''facts bay a1-done a2-done b1-done
open bay
goals a2-done b1-done
bound 5

job a1 4: -> a1-done
job a2 12: a1-done -> a2-done
job b1 4: -> b1-done
'''),
]
# Batches whose text must give the file of these groups.
MADE = [*((group,) for group in range(12)), (7, 7, 1), (7, 7, 7, 7), (10, 10, 10), (9, 9, 9, 1), (8, 8, 8, 8), ()]
# Batches that are refused, with the number and the place.
REFUSED = [('12', 28, 0), ('10 10 10 255', 28, 3), ('0 0 0 0 0 12 13', 28, 5), ('0 ' * 300 + '200', 28, 300), ('0 0 0 0 0', 29, 4),
           ('10 10 10 0', 30, 0), ('10 10 10 10', 30, 0)]
# What the shell does with the tool, and the words that must be said.
UNABLE = [
    ('"$0" make </', 'is a folder'),
    ('"$0" show </', 'is a folder'),
    ('"$0" make <&-', 'standard input cannot be read'),
    ('"$0" make >&-', 'standard output cannot be written'),
    ('"$0" make >/dev/full', 'standard output cannot be written'),
    ('"$0" --help >/dev/full', 'standard output cannot be written'),
    ('"$0" tidy /nowhere/file', '/nowhere/file cannot be read'),
    ('"$0" tidy /', '/ is no file'),
    ('"$0" tidy /dev/null', '/dev/null is no file'),
    ('"$0" tidy', 'usage'),
    ('"$0" tidy one two', 'usage'),
    ('"$0" batches', 'usage'),
    ('"$0" batches 7 7 1', 'usage'),
    ('"$0" batches 7 --bound', 'usage'),
    ('"$0" batches --bound 9 7 --bound 9', 'usage'),
    ('"$0" batches 7 --bound 65536', 'the bound is a number from 0 to 65535'),
    ('"$0" batches 7 --bound -1', 'the bound is a number from 0 to 65535'),
    ('"$0" batches 7 --bound ""', 'the bound is a number from 0 to 65535'),
    ('"$0" batches 7 256 --bound 9', "a group is a number from 0 to 255, not '256'"),
    ('"$0" batches -1 --bound 9', "not '-1'"),
    ('"$0" batches seven --bound 9', "not 'seven'"),
    ('"$0" batches "" --bound 9', "not ''"),
    ('"$0" batches "7 7" --bound 9', "not '7 7'"),
    ('"$0" batches 7 --bound=9 --bound 9', "not '--bound=9'"),
    ('"$0" batches 7 --bound 9 >&-', 'standard output cannot be written'),
    ('"$0" batches 7 --bound 9 >/dev/full', 'standard output cannot be written'),
]


def refusal_words():
    """The words of each refusal and of its place, as README's table has them."""
    with open(os.path.join(ROOT, 'README.md'), encoding='utf-8') as lines:
        rows = [re.fullmatch(r'\| (\d+) \| (.*) \| (.*) \|\n', line) for line in lines]
    return [row.groups() for row in rows if row]


def run(word, data):
    done = subprocess.run([TOOL, word], input=data, capture_output=True)
    return done.returncode, done.stdout, done.stderr.decode()


def refusal_line(number, place):
    """What is said of a refusal, by README's table."""
    words, where = {int(row[0]): row[1:] for row in refusal_words()}[number]
    return f'refusal {number}: {words}' + (f'; place {place}: {where}' if where != '0' else '') + '\n'


def expand(words, tool=TOOL, **options):
    """What the tool says to batches."""
    done = subprocess.run([tool, 'batches', *words], capture_output=True, **options)
    return done.returncode, done.stdout.decode(), done.stderr.decode()


def group_text(group):
    """A house group as the header writes it: the durations of its stages, b where one holds the bay."""
    _, text, _ = expand([str(group), '--bound', '2880'])
    return ' '.join(duration + 'b' * bool(held) for duration, held in re.findall(r'^job \w+ (\d+):.*?( - bay)?$', text, re.M))


def header_groups():
    """The house groups as the header lists them."""
    with open(os.path.join(ROOT, 'include/nuzzlefleece.h'), encoding='utf-8') as header:
        text = re.sub(r'\s+', ' ', header.read().replace('\n *', ' '))
    return re.search(r'b where the wash bay is held: ([^.]*)\.', text)[1]


def batch_cases():
    """The groups of the header, texts known and texts made into files, the bound anywhere and over 2,880, and refusals."""
    yield "the header's house groups", header_groups() == '; '.join(map(group_text, range(12)))
    for groups, bound, text in BATCHES:
        yield f'batches {groups!r}', expand([*groups.split(), '--bound', str(bound)]) == (0, text, '')
    for groups in MADE:
        status, text, said = expand([*map(str, groups), '--bound', '2880'])
        table = house(groups)
        file = save_bytes(table.jobs, len(table.jobs), table.atoms, 1, table.goals, 2880, 32 * len(table.jobs))
        yield f'the file of {groups}', (status, said) == (0, '') and run('make', text.encode()) == (0, file, '')
    groups, bound, text = BATCHES[2]
    for at in range(4):
        words = groups.split()
        words[at:at] = ['--bound', f'0{bound}']
        yield f'the bound before batch {at}', expand(words) == (0, text, '')
    for over in (2881, 65535):
        wanted = 0, text.replace('bound 2880', f'bound {over}'), 'jobfile: warning: the planner will refuse this, ' + refusal_line(9, 0)
        yield f'bound {over}', expand([*groups.split(), '--bound', str(over)]) == wanted
    for groups, number, place in REFUSED:
        yield f'refusal {number} at {place}', expand([*groups.split(), '--bound', '9']) == (1, '', 'jobfile: ' + refusal_line(number, place))


def unbuilt_cases(room):
    """A copy of the tool where the program that expands batches is not built, and where what stands in its place is no program."""
    shutil.copytree(os.path.join(ROOT, 'tools'), os.path.join(room, 'alone/tools'))
    alone = os.path.join(room, 'alone')
    call = lambda: expand(['7', '--bound', '9'], os.path.join(alone, 'tools/jobfile'), cwd=alone)
    yield 'no program', call() == (2, '', "jobfile: run-program: no program batch_file; 'tools/build' builds it\n")
    os.makedirs(os.path.join(alone, 'target/bin'))
    with open(os.path.join(alone, 'target/bin/batch_file'), 'w', encoding='utf-8') as file:
        file.write('no program')
    status, out, said = call()
    yield 'a file that is none', (status, out) == (2, '') and said.startswith('jobfile: ')


def unable(command, words):
    """Whether the tool ends with status 2 and says so in one line."""
    done = subprocess.run(['sh', '-c', command, TOOL], input=U.encode(), capture_output=True)
    said = done.stderr.decode()
    return done.returncode == 2 and said.startswith('jobfile: ') and words in said and said.count('\n') == 1


def broken_pipe():
    """Whether the same holds where nobody reads any more."""
    reading, writing = os.pipe()
    os.close(reading)
    done = subprocess.run([TOOL, 'make'], input=U.encode(), stdout=writing, stderr=subprocess.PIPE)
    os.close(writing)
    return done.returncode == 2 and done.stderr == b'jobfile: standard output cannot be written: Broken pipe\n'


class Folder:
    """A folder with one file in it, which the tool is to tidy."""

    def __init__(self, room, file, mode=0o640):
        self.name = os.path.join(tempfile.mkdtemp(dir=room), 'jobs.job')
        with open(self.name, 'wb') as new:
            new.write(file)
        os.chmod(self.name, mode)
        self.before = os.stat(self.name)

    def tidy(self, name=None, before=''):
        """What the tool says; a command of the shell may come before it."""
        command = f'{before} exec "$0" tidy "$1"'
        done = subprocess.run(['sh', '-c', command, TOOL, name or self.name], capture_output=True)
        return done.returncode, done.stdout, done.stderr.decode()

    def holds(self, file, names=('jobs.job',)):
        """Whether the file is this one, with the mode it had, and nothing else stands beside it."""
        with open(self.name, 'rb') as held:
            same = held.read() == file
        return same and os.stat(self.name).st_mode == self.before.st_mode and sorted(os.listdir(os.path.dirname(self.name))) == sorted(names)

    def untouched(self):
        now = os.stat(self.name)
        return (now.st_ino, now.st_mtime_ns) == (self.before.st_ino, self.before.st_mtime_ns)


def tidy_cases(room):
    """Files tidied, and files that are not and stay as they are."""
    for file, left, line in TIDIED:
        folder = Folder(room, file)
        yield f'tidied: {line}', folder.tidy() == (0, line, '') and folder.holds(left) and folder.untouched() == (file == left)
        yield f'tidied again: {line}', folder.tidy()[::2] == (0, '') and folder.holds(left)
    for file, words in [*BAD_FILES, (bytes(65385) + U_FILE, 'more than 65536')]:
        folder = Folder(room, file)
        status, out, said = folder.tidy()
        yield f'not tidied: {words}', (status, out) == (1, b'') and words in said and folder.holds(file) and folder.untouched()
    for text, number, _ in WARNED:
        file = U_FILE + run('make', text.encode())[1]
        folder = Folder(room, file)
        status, out, said = folder.tidy()
        yield f'not tidied: refusal {number}', (status, out) == (1, b'') and f'refusal {number}: ' in said and folder.untouched()


def failing_cases(room):
    """A link, a new file and a line that cannot be written, and a pipe."""
    folder = Folder(room, NOTED, 0o600)
    link = os.path.join(os.path.dirname(folder.name), 'link')
    os.symlink('jobs.job', link)
    yield 'tidied by a link', folder.tidy(link)[0] == 0 and folder.holds(NOTED_SAVE, ('jobs.job', 'link')) and os.path.islink(link)
    folder = Folder(room, NOTED)
    status, out, said = folder.tidy(before='ulimit -f 0;')
    yield 'no room for a new file', (status, out) == (2, b'') and 'is as it was' in said and folder.holds(NOTED) and folder.untouched()
    folder = Folder(room, NOTED)
    status, _, said = folder.tidy(before='exec >/dev/full;')
    yield 'tidied and not told', status == 2 and 'standard output' in said and folder.holds(NOTED_SAVE)
    name = os.path.join(os.path.dirname(folder.name), 'pipe')
    os.mkfifo(name)
    yield 'a pipe', folder.tidy(name) == (2, b'', f'jobfile: {name} is no file\n')


def as_library(folder, file, line):
    """Whether the tool leaves what the library leaves of the same bytes, or refuses with the same number, 1 and 2 in its own words."""
    refusal, _, _, length, left = line.split(' ')
    status, _, said = folder.tidy()
    if refusal == '0':
        return status == 0 and folder.holds(bytes.fromhex(left)[:int(length)])
    return status == 1 and (refusal in '12' or f'refusal {refusal}: ' in said) and folder.holds(file)


def library_cases(room, dice):
    """Files in order, damaged and of faulty tables, as the corpus of calls has them; most are in order."""
    calls = [drawn(dice) for _ in range(80)]
    files = [call.table[:call.head[6]] for call in calls] + [NOTED, U_FILE, U_FILE[:-1], NOTED + LATE_FILE]
    lines = answers_to([tidy_call(file) for file in files])
    yield 'half of them are in order', sum(line.startswith('0 ') for line in lines) > len(files) // 2
    for number, (file, line) in enumerate(zip(files, lines)):
        yield f'as the library {number}: {line[:9]}', as_library(Folder(room, file), file, line)


def random_file(dice):
    """One save of any numbers at all, those that the planner refuses too."""
    count = dice.choice((0, 1, 3, 24, 25, 255))
    bits = dice.choice((1, 5, 63, 64))
    words = lambda: dice.getrandbits(bits) & dice.getrandbits(bits)
    times = lambda: (dice.getrandbits(16), dice.choice((0, dice.getrandbits(16))))
    records = b''.join(struct.pack('<QQQHH4x', words(), words(), words(), *times()) for _ in range(count))
    atoms = dice.choice((0, bits, 64, 65, 127)) + dice.choice((0, 128))
    return records + struct.pack('<QQHBBI', words(), words(), dice.getrandbits(16), count, atoms, len(records))


def cases():
    """Name and outcome of each case."""
    yield 'make of jobs U', run('make', U.encode()) == (0, U_FILE, '')
    yield 'show of jobs U', run('show', U_FILE) == (0, SHOWN.encode(), '')
    yield 'make of a release', run('make', LATE.encode()) == (0, LATE_FILE, '')
    yield 'show of a release', run('show', LATE_FILE) == (0, LATE_SHOWN.encode(), '')
    yield 'release 0', run('make', ON_TIME.encode()) == (0, U_FILE, '')
    yield 'make of rule 2', run('make', RULED.encode()) == (0, RULED_FILE, '')
    yield 'show of rule 2', run('show', RULED_FILE) == (0, RULED_SHOWN.encode(), '')
    yield 'rule 1', run('make', UNRULED.encode()) == (0, U_FILE, '')
    dice = random.Random(4)
    for number in range(20):
        file = random_file(dice)
        yield f'round trip {number}', run('make', run('show', file)[1])[:2] == (0, file)
    passed_over = '# passed over: 152 bytes before the records, 5 behind them\n'
    yield 'older save and notes', run('show', NOTED) == (0, (passed_over + SHOWN).encode(), '')
    for text, line, words in ERRORS:
        status, out, said = run('make', text.encode())
        yield f'error {words!r}', (status, out) == (1, b'') and said.startswith(f'jobfile: line {line}: ') and words in said and len(said) < 200
    for file, words in BAD_FILES:
        status, out, said = run('show', file)
        yield f'bad file {words!r}', (status, out) == (1, b'') and words in said
    yield 'usage', run('take', b'')[0] == 2
    explained = b'release 6', b'rule 2', b'tidy FILE', b'batches 7 7 1 --bound 2880'
    yield 'help', run('--help', b'')[::2] == (0, '') and all(words in run('--help', b'')[1] for words in explained)
    yield 'byte order mark', run('make', b'\xef\xbb\xbf' + U.encode()) == (0, U_FILE, '')
    yield 'zeros before a number', run('make', U.replace('bound 12', 'bound ' + '0' * 9999 + '12').encode()) == (0, U_FILE, '')
    table = refusal_words()
    with open(os.path.join(ROOT, 'tools/refusals'), encoding='utf-8') as lines:
        told = [tuple(line.rstrip('\n').split('|')) for line in lines]
    yield 'words of the refusals', told == table and len(table) == 31
    for text, number, place in WARNED:
        status, out, said = run('make', text.encode())
        right = said.startswith('jobfile: warning: ') and said.endswith(refusal_line(number, place))
        yield f'warning of {number} at {place}', status == 0 and len(out) >= 24 and right
    yield 'no warning', run('make', IN_ORDER.encode())[::2] == (0, '')
    yield 'no warning under rule 2', run('make', f'rule 2\n{IN_ORDER}'.encode())[::2] == (0, '')
    for command, words in UNABLE:
        yield f'unable: {command}', unable(command, words)
    yield 'a broken pipe', broken_pipe()
    yield from batch_cases()
    with tempfile.TemporaryDirectory() as room:
        yield from tidy_cases(room)
        yield from failing_cases(room)
        yield from unbuilt_cases(room)
        yield from library_cases(room, dice)


def main():
    passed = failed = 0
    for name, right in cases():
        if right:
            passed += 1
        else:
            failed += 1
            print(f'jobfile tool: {name} FAILED')
    print(f'{passed} passed, {failed} failed')
    return 1 if failed else 0


if __name__ == '__main__':
    sys.exit(main())
