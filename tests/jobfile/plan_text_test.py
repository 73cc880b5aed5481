#!/usr/bin/env python3
"""tools/plan-text: the plans of the examples written as their bench-plan texts have them, plans checked in every form, each refusal with the job,
fact or line that it names, names that are too long or bad, wrong jobs with their line, and what cannot be read or written. Last line:
'N passed, M failed'."""
import glob
import os
import re
import shutil
import subprocess
import sys
import tempfile
from itertools import permutations

sys.dont_write_bytecode = True
ROOT = os.path.dirname(os.path.dirname(os.path.dirname(os.path.abspath(__file__))))
TOOL = os.path.join(ROOT, 'tools/plan-text')
P3 = '''facts packed unpacked drenched warm washed
open packed
goals drenched warm washed
bound 12
job unpack 4: packed -> unpacked - packed
job drench 2: unpacked -> drenched
job warm 8: unpacked -> warm
job wash 3: unpacked -> washed - drenched
'''
P3_LINES = ['0.000: (unpack) [4.000]\n', '4.000: (warm) [8.000]\n', '4.000: (wash) [3.000]\n', '7.000: (drench) [2.000]\n']
P3_PLAN = ''.join(P3_LINES)
LATE, RULED = P3.replace('job warm 8:', 'job warm 8 release 5:'), P3.replace('bound 12', 'bound 13\nrule 2')
RULED_PLAN = '0.000: (unpack) [4.000]\n5.000: (warm) [8.000]\n5.000: (wash) [3.000]\n9.000: (drench) [2.000]\n'
NO_JOBS = 'facts a\nopen a\ngoals a\nbound 0\n'
# Jobs that `write` refuses, with the number, the place and what stands there.
UNWRITTEN = [
    (P3.replace('bound 12', 'bound 11'), 10, 0, ''),
    (P3.replace('bound 12', 'bound 2881'), 9, 0, ''),
    (P3 + 'atoms 0\n', 4, 0, ''),
    (P3 + '\n'.join(f'job more-{n} 1: ->' for n in range(21)), 5, 0, ''),
    (P3.replace('warm 8', 'warm 961'), 6, 2, 'warm'),
    (P3.replace('drench 2', 'drench 2 release 2881'), 20, 1, 'drench'),
    (P3 + 'atoms 4\n', 7, 3, 'wash'),
    (P3 + 'facts more\natoms 5\ngoals more\n', 7, 24, ''),
    (P3.replace('-> warm', '-> warm - warm'), 8, 2, 'warm'),
    (P3.replace('drench 2', 'Drench 2'), 33, 1, 'Drench'),
    (P3.replace('job wash', 'job wash.1').replace('job warm', 'job warm_1'), 33, 2, 'warm_1'),
]
# Plans that `check` refuses, with the jobs, the number, the place and what stands there.
UNCHECKED = [
    (P3, '4.01: (warm) [8]\n', 23, 0, "'4.01: (warm) [8]'"),
    (P3, P3_PLAN[:-1], 23, 3, "'7.000: (drench) [2.000]'"),
    (P3, P3_PLAN + '\n', 23, 4, "''"),
    (P3, '0: (unpack) [4]\n2881: (warm) [8]\n', 23, 1, "'2881: (warm) [8]'"),
    (P3, '0: (unpack) [4]\r\n', 23, 0, "'0: (unpack) [4]\\r'"),
    (P3, '0: (\xe4) [4]\n', 23, 0, "'0: (\\xc3\\xa4) [4]'"),
    (P3, f'0: ({"a" * 60}) [4]\n', 23, 0, f"'0: ({'a' * 36}..'"),
    (P3, P3_LINES[0] + '4: (rinse) [3]\n', 24, 1, "'4: (rinse) [3]'"),
    (P3, P3_PLAN + P3_LINES[0], 25, 4, f'{P3_LINES[0][:-1]!r}'),
    (P3, '0: (unpack) [1]\n', 26, 0, "'0: (unpack) [1]'"),
    (P3.replace('bound 12', 'bound 11'), P3_PLAN, 11, 2, 'warm'),
    (LATE, P3_PLAN, 21, 2, 'warm'),
    (P3, P3_PLAN.replace('7.000', '6.000'), 12, 1, 'drench'),
    (RULED, P3_PLAN, 12, 1, 'drench'),
    (P3, ''.join(P3_LINES[1:]), 13, 1, 'drench'),
    (P3, ''.join(P3_LINES[:3]), 14, 2, 'drenched'),
    (P3, '', 14, 2, 'drenched'),
    *((jobs, 'x', number, place, what) for jobs, number, place, what in UNWRITTEN if number != 10),
]
# Plans that are valid, with their jobs.
VALID = [
    *((P3, ''.join(order)) for order in permutations(P3_LINES)),
    *((P3, P3_PLAN.replace('.000', zeros)) for zeros in ('', '.0', '.00', '.0000000')),
    (P3, P3_PLAN.replace('4.000:', '0004:')),
    (P3.replace('bound 12', 'bound 2880'), P3_PLAN.replace('7.000', '2878')),
    (P3.replace('goals drenched warm washed', 'goals packed'), ''),
    (RULED, RULED_PLAN),
    (NO_JOBS, ''),
]
# Jobs that are wrong, with the words that must be said.
WRONG = [
    (P3 + 'bounds 3\n', 'line 9: a line begins with'),
    (P3 + 'job wash 3: ->\n', 'line 9: job wash is named twice'),
    (P3 + 'job w\xe4sche 3: ->\n', 'line 9: '),
    ('facts a\n', 'line 1: there is no bound'),
    (P3.replace('job drench', 'job drench-the-plants-1'), 'job drench-the-plants-1: in a plan as text a name has at most 16 letters'),
    (P3.replace('job drench', 'job drench-the-plant'), None),
    (P3.replace('job drench', 'job drench-the-plants'), 'job drench-the-plants: '),
    (P3 + f'job {"a" * 999} 1: ->\n', f'job {"a" * 40}..: '),
]
# What the shell does with the tool, and the words that must be said.
UNABLE = [
    ('"$0"', 'usage'),
    ('"$0" write', 'usage'),
    ('"$0" write one two', 'usage'),
    ('"$0" check one', 'usage'),
    ('"$0" check - -', 'usage'),
    ('"$0" read one', 'usage'),
    ('"$0" write /nowhere/jobs', '/nowhere/jobs cannot be read'),
    ('"$0" check - /nowhere/plan', '/nowhere/plan cannot be read'),
    ('"$0" write /', '/ cannot be read'),
    ('"$0" write - </', 'is a folder'),
    ('"$0" write - <&-', 'standard input cannot be read'),
    ('"$0" write - >&-', 'standard output cannot be written'),
    ('"$0" write - >/dev/full', 'standard output cannot be written'),
    ('"$0" --help >/dev/full', 'standard output cannot be written'),
]


def words_of_refusals():
    """The words of each refusal and of its place, as README's table has them."""
    with open(os.path.join(ROOT, 'README.md'), encoding='utf-8') as lines:
        rows = [re.fullmatch(r'\| (\d+) \| (.*) \| (.*) \|\n', line) for line in lines]
    return {int(row[1]): row.groups()[1:] for row in rows if row}


def refusal_line(number, place, what):
    words, where = words_of_refusals()[number]
    behind = f'; place {place}: {where}' if where != '0' else ''
    return f'plan-text: refusal {number}: {words}{behind}' + (f': {what}' if what else '') + '\n'


class Room:
    """A folder for jobs and plans."""

    def __init__(self, name):
        self.name = name

    def file(self, name, text):
        path = os.path.join(self.name, name)
        with open(path, 'w', encoding='utf-8', newline='') as file:
            file.write(text)
        return path

    def write(self, jobs):
        return run('write', self.file('jobs', jobs))

    def check(self, jobs, plan):
        return run('check', self.file('jobs', jobs), self.file('plan', plan))


def run(*words, given='', tool=TOOL, **options):
    done = subprocess.run([tool, *words], input=given.encode(), capture_output=True, **options)
    return done.returncode, done.stdout.decode(), done.stderr.decode()


def expected_plan(jobs, page):
    """The plan in the text of bench-plan, start, finish and job a line, by the names of the jobs; None where it is refused."""
    names = re.findall(r'^job (\S+)', jobs, re.M)
    steps = re.findall(r'^(\d+) (\d+) (\d+)$', page, re.M)
    lines = (f'{start}.000: ({names[int(job)]}) [{int(end) - int(start)}.000]\n' for start, end, job in steps)
    return ''.join(lines) if page.startswith('least ') else None


def example_cases():
    """Each example is written as bench-plan's own text of it says, and what is written is valid."""
    for text in sorted(glob.glob(os.path.join(ROOT, 'examples/*.txt'))):
        with open(text, encoding='utf-8') as jobs, open(text[:-3] + 'out', encoding='utf-8') as page:
            plan = expected_plan(jobs.read(), page.read())
        name = os.path.basename(text)
        if plan is None:
            yield f'{name} has no plan', run('write', text) == (1, '', refusal_line(10, 0, ''))
        else:
            yield f'{name} written', run('write', text) == (0, plan, '')
            yield f'{name} checked', run('check', text, '-', given=plan) == (0, 'valid\n', '')


def refusal_cases(room):
    for jobs, number, place, what in UNWRITTEN:
        yield f'write refuses {number} at {place}', room.write(jobs) == (1, '', refusal_line(number, place, what))
    for jobs, plan, number, place, what in UNCHECKED:
        yield f'check refuses {number} at {place}: {plan[:40]!r}', room.check(jobs, plan) == (1, '', refusal_line(number, place, what))
    for jobs, words in WRONG:
        for status, out, said in (room.write(jobs), room.check(jobs, P3_PLAN.replace('(drench)', '(drench-the-plant)'))):
            right = status == 0 if words is None else (status, out) == (1, '') and said.startswith(f'plan-text: {words}') and said.count('\n') == 1
            yield f'jobs: {words}', right


def long_cases(room):
    """A plan of as many bytes as may be, one of more, and jobs of more."""
    zeros = '0' * (65536 - len(P3_PLAN))
    longest = P3_PLAN.replace('0.000:', f'0.000{zeros}:', 1)
    yield 'the longest plan', room.check(P3, longest) == (0, 'valid\n', '')
    yield 'a plan too long', room.check(P3, longest.replace('0:', '00:', 1)) == (1, '', 'plan-text: the plan has more than 65536 bytes\n')
    yield 'jobs too long', room.write(P3 + '#' * (1 << 24)) == (1, '', 'plan-text: the text has more than 16777216 bytes\n')
    many = P3 + '\n'.join(f'job more-{n} 1: ->' for n in range(251))
    yield '255 jobs', room.write(many) == (1, '', refusal_line(5, 0, ''))


def unable(command, words):
    """Whether the tool ends with status 2 and says so in one line."""
    done = subprocess.run(['sh', '-c', command, TOOL], input=P3.encode(), capture_output=True)
    said = done.stderr.decode()
    return done.returncode == 2 and said.startswith('plan-text: ') and words in said and said.count('\n') == 1


def unbuilt_cases(room):
    """A copy of the tool where the program is not built, and where what stands in its place is no program."""
    alone = os.path.join(room.name, 'alone')
    shutil.copytree(os.path.join(ROOT, 'tools'), os.path.join(alone, 'tools'))
    call = lambda: run('write', '-', given=P3, tool=os.path.join(alone, 'tools/plan-text'), cwd=alone)
    yield 'no program', call() == (2, '', "plan-text: run-program: no program plan_text; 'tools/build' builds it\n")
    os.makedirs(os.path.join(alone, 'target/bin'))
    with open(os.path.join(alone, 'target/bin/plan_text'), 'w', encoding='utf-8') as file:
        file.write('no program')
    status, out, said = call()
    yield 'a file that is none', (status, out) == (2, '') and said.startswith('plan-text: ')


def cases(room):
    """Name and outcome of each case."""
    yield 'P3 has 92 bytes', len(P3_PLAN) == 92
    yield 'P3', room.write(P3) == (0, P3_PLAN, '')
    yield 'P3 from standard input', run('write', '-', given=P3) == (0, P3_PLAN, '')
    yield 'P3 with all the time there is', room.write(P3.replace('bound 12', 'bound 2880')) == (0, P3_PLAN, '')
    yield 'P3 under rule 2', room.write(RULED) == (0, RULED_PLAN, '')
    yield 'no jobs', room.write(NO_JOBS) == (0, '', '')
    yield 'jobs from standard input', run('check', '-', room.file('plan', P3_PLAN), given=P3) == (0, 'valid\n', '')
    yield 'a byte order mark', room.write('\ufeff' + P3) == (0, P3_PLAN, '')
    for jobs, plan in VALID:
        yield f'valid: {plan!r}', room.check(jobs, plan) == (0, 'valid\n', '')
    yield from example_cases()
    yield from refusal_cases(room)
    yield from long_cases(room)
    status, told, said = run('--help')
    yield 'help', (status, said) == (0, '') and all(words in told for words in ('write JOBS', 'check JOBS PLAN', '65536', 'Status 2'))
    for command, words in UNABLE:
        yield f'unable: {command}', unable(command, words)
    yield from unbuilt_cases(room)


def main():
    passed = failed = 0
    with tempfile.TemporaryDirectory() as folder:
        for name, right in cases(Room(folder)):
            if right:
                passed += 1
            else:
                failed += 1
                print(f'plan text tool: {name} FAILED')
    print(f'{passed} passed, {failed} failed')
    return 1 if failed else 0


if __name__ == '__main__':
    sys.exit(main())
