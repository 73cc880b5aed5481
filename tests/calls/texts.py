"""Calls that read a plan from its text and write it: P3's text with every byte damaged, numbers and names in the form and outside it, lines in any
order, with several faults at once, more of them than jobs and very long ones; name tables in order and bad ones; plans with every refusal, which in
writing come before that of the names; and drawn plans written, read back, mixed and damaged."""
from dataclasses import replace
from itertools import combinations, permutations, product

from call import NAME, Job
from draft import (HYGIENE, LATE, LINE, MOST, ON_TIME, READ_TEXT, TEXTS, WRITE_TEXT, Draft, cut_to_limits, each_fault, name_table, planned_table,
                   some_offer, two_faults)
from follows import P3, PLANS, UNWASHED, near, spread_table, too_near
from tables import LAST_BOUND, LONGEST, MOST_JOBS, OUT, Problem, chain, job, jobs_in, jobs_u, ruled, to_its_end

CRATES = ON_TIME, LATE, HYGIENE
LAST_START = 2880
LETTERS = 'abcdefghijklmnopqrstuvwxyz0123456789-'
P3_NAMES = 'unpack', 'drench', 'warm', 'wash'
SIXTEEN = 'abcdefghij-01234'
# The bytes that stand in for each byte of P3's text, and for each of its name table.
PUT_IN = b'\0 \n(7Z\xff'
PUT_IN_NAMES = b'\0a0-_W\x80'
# A table of 24 jobs with its plan.
FULL = to_its_end(chain([1] * MOST_JOBS, True), list(range(MOST_JOBS))), list(range(MOST_JOBS))
# How a number may be written that is 4, and what looks like a number and is none.
FOURS = '4', '04', '004', '0004', '4.0', '04.00', '0004.000', '4.000000', '4.' + '0' * 300
NO_NUMBERS = ('', '00004', '4.', '.0', '.', '4.01', '4.10', '4.0.0', '4..0', '4,0', '+4', '-4', ' 4', '4 ', '4e0', '4.0 ', '4. 0', '0x4', 'four',
              '12345', '65540', '4\0', '4.0\0')
# What stands in a table where a name should: nothing, letters behind a zero, a letter that no name has.
BAD_NAMES = (b'', b'a\0b', b'a' + bytes(14) + b'a', b'Warm', b'wa_m', b'wa.m', b'wa m', b'w\x80', b'w\xff', b'w\n', b'abcdefghijklmnoP', b'{', b'`', b'/',
             b':', b'@')


def line(start, name, duration, zeros='.000'):
    return f'{start}{zeros}: ({name}) [{duration}{zeros}]\n'


def lines_of(problem, names, starts, zeros='.000'):
    """The lines of a plan, by start, then job."""
    steps = sorted((starts[j], j) for j in jobs_in(starts))
    return [line(start, names[j], problem.jobs[j].duration, zeros) for start, j in steps]


P3_LINES = lines_of(P3[0], P3_NAMES, P3[1])
P3_TEXT = ''.join(P3_LINES)


def as_bytes(text):
    return text if isinstance(text, bytes) else text.encode('latin-1')


def read_draft(problem, names, text):
    """A draft that reads a text with these names."""
    draft = Draft(READ_TEXT, problem)
    draft.names, draft.text = name_table(names), as_bytes(text)
    return draft


def write_draft(problem, names, starts):
    draft = Draft(WRITE_TEXT, problem, starts)
    draft.names = name_table(names)
    return draft


def p3_read(text, names=P3_NAMES):
    return read_draft(P3[0], names, text).call()


def both(problem, names, starts, text):
    """The plan is written and the text read, with the same names."""
    yield write_draft(problem, names, starts).call()
    yield read_draft(problem, names, text).call()


def some_names(dice, count):
    """Different names, now and then all of them as long as can be or all short."""
    lengths = dice.choice(((1, 16), (1, 16), (1, 2), (15, 16)))
    names = {}
    while len(names) < count:
        names[''.join(dice.choice(LETTERS) for _ in range(dice.randint(*lengths)))] = True
    return list(names)


# Lines.

def damaged_bytes(dice):
    """P3's text with each byte replaced, dropped and doubled."""
    text = P3_TEXT.encode()
    for at in range(len(text)):
        others = [bytes([byte]) for byte in PUT_IN if byte != text[at]]
        yield from (p3_read(text[:at] + other + text[at + 1:]) for other in (b'', text[at:at + 1] * 2, *others))


def numbers(dice):
    """Each way to write a number, as a start and as a duration, as the first line and behind another."""
    for number in (*FOURS, *NO_NUMBERS):
        yield p3_read(f'{number}: (warm) [8]\n')
        yield p3_read(P3_LINES[3] + f'9: (unpack) [{number}]\n')


def last_starts(dice):
    """Starts around the last one, and the largest that have four digits."""
    for start in ('0', '0000', '999', '1000', '2879', '2880', '2880.0', '02880', '2881', '2881.000', '2890', '2900', '3000', '4096', '9999', '10000'):
        yield from (p3_read(text) for text in (f'{start}: (warm) [8]\n', P3_LINES[0] + f'{start}: (wash) [3.0]\n'))


def names_in_lines(dice):
    """Names that the table has, that it has not, and that are none."""
    table = SIXTEEN, '-', 'a', '0'
    others = ('abcdefghij-0123', 'abcdefghij-012345', 'Abcdefghij-01234', 'abcdefghij-01235', 'a' * 17, 'a' * 40, 'b', 'aa', '--', '00', 'A', '', 'a_', 'a.',
              ' a', 'a ', 'a\0', '(a', 'a)', 'a) [4]', '\xe4', '\xff', 'a\na')
    for name in (*table, *others):
        yield from (read_draft(P3[0], table, text).call() for text in (line(0, name, 4), line(3, 'a', 8) + line(0, name, 2, '')))


def ends(dice):
    """The empty text, texts without a last newline, empty lines anywhere, other ends of lines, and bytes behind the last one."""
    texts = ['', '\n', '\n\n', '\0', '\0' * 64, ' ', '\r\n', P3_TEXT[:-1], P3_TEXT + '\n', '\n' + P3_TEXT, P3_TEXT.replace('\n', '\r\n'), P3_TEXT + '\0',
             P3_TEXT + ' ', P3_TEXT + '; end\n', '; plan\n' + P3_TEXT, P3_TEXT.replace('\n', '\n\n'), P3_TEXT.replace('\n', ' \n'), P3_TEXT.replace(': ', ':'),
             P3_TEXT.replace(') [', ')['), P3_TEXT.replace('\n', ''), P3_TEXT.upper(), '\ufeff'.encode() + P3_TEXT.encode()]
    texts += [''.join(P3_LINES[:count]) for count in range(5)] + [''.join(P3_LINES[:count])[:-1] for count in range(1, 5)]
    texts += [''.join([*P3_LINES[:at], '\n', *P3_LINES[at:]]) for at in range(1, 4)]
    return map(p3_read, texts)


def twice(dice):
    """Each job twice, at the same start and at another, next to each other and apart, with its duration and with another."""
    for at, (start, long) in product(range(4), ((None, None), (9, None), (9, 1), (None, 961))):
        name, own_start, own_long = P3_NAMES[at], P3[1][at], P3[0].jobs[at].duration
        again = line(own_start if start is None else start, name, own_long if long is None else long)
        own = line(own_start, name, own_long)
        yield from map(p3_read, (own + again, ''.join([own, *(other for other in P3_LINES if other != own), again])))


def other_durations(dice):
    """Each job with durations that it has not, also such as no job has, at each line."""
    for at, more in product(range(4), (-1, 1, None)):
        own = P3[0].jobs[at].duration
        for long in (own + more,) if more else (0, LONGEST, 961, 1000, 9999, own + 256, f'{own}0'):
            changed = [line(P3[1][at], P3_NAMES[at], long) if f'({P3_NAMES[at]})' in text else text for text in P3_LINES]
            yield p3_read(''.join(changed))


def orders(dice):
    """Every order of P3's lines, with three zeros and with none; and every two of them alone."""
    for order in permutations(P3_LINES):
        text = ''.join(order)
        yield from map(p3_read, (text, text.replace('.000', dice.choice(('', '.0', '.0000')))))
    yield from (p3_read(''.join(two)) for two in combinations(P3_LINES, 2))


def fault_lines():
    """Lines behind one of unpack, with every set of faults that a line can have, by the number that each gives."""
    for form, known, again, right in product((True, False), repeat=4):
        name = 'rinse' if not known else 'unpack' if again else 'warm'
        long = {'unpack': 4, 'warm': 8}.get(name, 5) + (0 if right else 1)
        yield line(5 if form else LAST_START + 1, name, long, '')


def several_faults(dice):
    """Every set of faults in one line, and two lines with any, of which the first decides."""
    faulty = sorted(set(fault_lines()))
    outside = [text.replace(']', '') for text in faulty]
    yield from (p3_read(P3_LINES[0] + text) for text in (*faulty, *outside))
    for one, other in product((*faulty, *outside[:4]), repeat=2):
        if dice.random() < 0.2:
            yield p3_read(P3_LINES[0] + one + P3_LINES[3] + other)


# Name tables.

def damaged_names(dice):
    """Each byte of P3's name table replaced by some others, in reading or in writing."""
    table = name_table(P3_NAMES)
    for at in range(len(table)):
        for byte in dice.sample([other for other in PUT_IN_NAMES if other != table[at]], 3):
            names = [table[:at] + bytes([byte]) + table[at + 1:]]
            yield dice.choice((read_draft(P3[0], names, P3_TEXT), write_draft(P3[0], names, P3[1]))).call()


def bad_names(dice):
    """Each bad name at each of four jobs, and some at each of 24 with another one behind it; with a text that is outside the form as well."""
    for at, bad in product(range(4), BAD_NAMES):
        names = [*P3_NAMES[:at], bad, *P3_NAMES[at + 1:]]
        yield from both(P3[0], names, P3[1], dice.choice((P3_TEXT, 'x', '', P3_TEXT[:-1], line(0, 'other', 4))))
    for at in range(MOST_JOBS):
        names = some_names(dice, MOST_JOBS)
        names[at] = dice.choice(BAD_NAMES)
        names[dice.randint(at, MOST_JOBS - 1)] = dice.choice(BAD_NAMES)
        yield from both(FULL[0], names, FULL[1], 'x')


def bad_lines(dice):
    """Each refusal of a line at each of 24 lines."""
    problem, starts = FULL
    for at in range(MOST_JOBS):
        names = some_names(dice, MOST_JOBS)
        lines = dice.sample(lines_of(problem, names, starts), MOST_JOBS)
        again, unknown = dice.choice(lines[:at] or lines[1:]), dice.choice(names)[:13] + '---'
        for bad in (lines[at][:-2] + '\n', line(0, unknown, 1), again, lines[at].replace('[1', '[2')):
            yield read_draft(problem, names, ''.join([*lines[:at], bad, *lines[at + 1:]])).call()


def alike(dice):
    """Every two of four jobs alike, and some of 24; three alike; two pairs; alike names that are bad, and alike names behind the jobs."""
    for one, other in combinations(range(4), 2):
        names = list(P3_NAMES)
        names[other] = names[one]
        yield from both(P3[0], names, P3[1], P3_TEXT)
    for one, other in dice.sample([*combinations(range(MOST_JOBS), 2)], 30):
        names = some_names(dice, MOST_JOBS)
        names[other] = names[one]
        yield dice.choice((write_draft(FULL[0], names, FULL[1]), read_draft(FULL[0], names, 'x'))).call()
    for names in (('a', 'b', 'b', 'b'), ('a', 'b', 'b', 'a'), ('b', 'a', 'a', ''), ('b', '', 'a', 'a'), ('a', 'a', '', ''), ('', '', 'a', 'a'),
                  ('a', b'a\0a', 'b', 'c'), (b'a\0a', 'a', 'b', 'c'), ('b', 'A', 'A', 'a'), (SIXTEEN, SIXTEEN, 'a', 'b'), (SIXTEEN, SIXTEEN[:15], 'a', 'b'),
                  ('a', 'aa', 'aaa', 'a' * 16), (*P3_NAMES, 'wash'), (*P3_NAMES, *P3_NAMES), (*P3_NAMES, b'', b'Z'), ('-', '--', '0', '00')):
        yield from both(P3[0], names, P3[1], lines_of(P3[0], ['a', 'aa', 'aaa', 'a' * 16], P3[1])[0])
        yield write_draft(UNWASHED[0], names, UNWASHED[1]).call()


# What is lent.

def lengths(dice):
    """One byte or element too few of each thing, just enough, one more, and none, for 0, 1 and 24 jobs; with garbage behind the names."""
    for kind, jobs in product(TEXTS, (0, 1, MOST_JOBS)):
        for part, more in product(('names', 'room', 'jobs', 'starts'), (-NAME, -1, 0, 1, NAME, -4096)):
            links = chain([2] * jobs, True)
            starts = list(range(0, 2 * jobs, 2))
            draft = Draft(kind, replace(links, goals=0, bound=2 * jobs), starts)
            draft.text = as_bytes(''.join(line(start, f'job-{j}', 2) for j, start in enumerate(starts)))
            if part == 'names':
                draft.names = draft.names[:max(0, len(draft.names) + more)] + bytes(dice.randrange(256) for _ in range(more))
            elif part == 'room':
                draft.room = max(0, draft.room + more)
            elif part == 'jobs':
                draft.jobs = draft.jobs[:max(0, jobs + more)] + [Job(MOST, MOST, MOST, OUT, OUT)] * more
            else:
                draft.starts = starts[:max(0, jobs + more)] + [7] * more
            yield draft.call()


def counts(dice):
    """One job more than anything is lent for, 25 with all that they need, and counts that nothing serves, also such as are small in few bits."""
    for kind in TEXTS:
        for count in (5, 24, 25, 2 ** 8, 2 ** 32, 2 ** 32 + 4, 2 ** 58, 2 ** 59, 2 ** 60, 2 ** 60 + 4, 2 ** 61, 2 ** 63, MOST // LINE + 1, MOST - 1, MOST):
            draft = write_draft(P3[0], P3_NAMES, P3[1]) if kind == WRITE_TEXT else read_draft(P3[0], P3_NAMES, P3_TEXT)
            draft.count = count
            yield draft.call()
        for count in (MOST_JOBS, MOST_JOBS + 1, 40):
            draft = Draft(kind, Problem((Job(0, 1, 0, 1),) * count, 1, 0, 0, 0), [OUT] * count)
            draft.names = dice.choice((draft.names, bytes(NAME * count)))
            draft.room = min(draft.room, 2048)
            yield draft.call()


def tables_and_names(dice):
    """Each fault of the table, with names in order and bad ones, and a text outside the form."""
    for crates, places in ((LATE, (0, MOST_JOBS - 1)), (HYGIENE, (11,))):
        for call in each_fault(dice, crates, places, TEXTS):
            if dice.random() < 0.5:
                names = min(call.head[6], NAME)
                call.table = bytes(names) + call.table[names:]
            yield call


def every_two_faults(dice):
    return (call for call in two_faults(dice, TEXTS) if dice.random() < 0.3)


def bounds(dice):
    """Reading looks at no bound; writing does, and before the names."""
    for bound, names in product((0, 1, 11, 12, LAST_BOUND, LAST_BOUND + 1, 4096, 65535), (P3_NAMES, ('a', 'a', 'b', 'c'))):
        yield from both(replace(P3[0], bound=bound), names, P3[1], P3_TEXT)


# Plans.

def small_plans(dice):
    """P3, with warm released later, under rule 2, and without wash; no jobs, and none in the plan; each written and read."""
    none = (jobs_u([0], 0), [OUT] * 4), (ruled(jobs_u([0], 0)), [OUT] * 4), (Problem((), 2, 1, 0, 0), []), (Problem((), 2, 1, 1, 9, 1), [])
    for problem, starts in (*PLANS, UNWASHED, *none):
        names = P3_NAMES[:len(starts)]
        yield from both(problem, names, starts, ''.join(lines_of(problem, names, starts)))


def wrong_plans(dice):
    """The plans of P3 within a shorter bound, with each job released too late, sooner, later and out, and plans with jobs too near, with names in
    order and with two alike; the same texts are read all the same."""
    for problem, starts in (*(other for plan in PLANS for other in near(*plan)), *too_near()):
        names = P3_NAMES[:len(starts)]
        bad = [*names[:-1], dice.choice((names[0], b'', b'Wash'))]
        yield write_draft(problem, names, starts).call()
        yield write_draft(problem, bad, starts).call()
        if dice.random() < 0.4:
            yield read_draft(problem, names, ''.join(lines_of(problem, names, starts))).call()


def longest_lines(dice):
    """24 lines of 39 bytes, and with names, starts and durations a digit or a letter shorter."""
    for letters, start, long in ((16, 2780, 100), (16, 1000, 960), (15, 2780, 100), (16, 999, 100), (16, 1000, 99), (1, 0, 1)):
        problem = Problem((job([], [0], [], long),) * MOST_JOBS, 1, 0, 1, LAST_BOUND)
        names = dice.sample([letter.ljust(letters, '-') for letter in LETTERS[:36]], MOST_JOBS)
        starts = [start if j % 3 else min(start + j, LAST_BOUND - long) for j in range(MOST_JOBS)]
        lines = lines_of(problem, names, starts)
        yield from both(problem, names, starts, ''.join(lines))
        yield read_draft(problem, names, ''.join([*lines, dice.choice(lines)])).call()
        yield read_draft(problem, names, ''.join([*lines, line(0, 'other', long)])).call()
        yield read_draft(problem, names, ''.join([*lines, '\n'])).call()


def long_texts(dice):
    """Texts of 70,000 bytes: zeros behind a point, digits, letters, blanks, lines without end, the same line again and again, empty lines."""
    many = 70000
    zeros = '0' * many
    for text in (f'4.{zeros}: (warm) [8]\n', f'4: (warm) [8.{zeros}]\n', f'4.{zeros}1: (warm) [8]\n', f'{zeros}4: (warm) [8]\n', f'4: ({zeros}) [8]\n',
                 P3_TEXT + zeros, P3_TEXT + '\n' * many, P3_LINES[0] * (many // len(P3_LINES[0])), ' ' * many, '\0' * many,
                 P3_TEXT + line(0, 'rinse', 1) * 2000):
        yield p3_read(text)


# Drawn calls.

def some_text(dice, problem, names, starts):
    """The lines of a plan in any order, with any zeros."""
    lines = lines_of(problem, names, starts, dice.choice(('.000', '.000', '', '.0', '.000000')))
    if dice.random() < 0.7:
        dice.shuffle(lines)
    return ''.join(lines)


def damaged(dice, text):
    """A byte or two replaced, dropped, put in or doubled; or a line dropped, doubled or changed to another job."""
    text = bytearray(as_bytes(text))
    for _ in range(dice.choice((1, 1, 2))):
        at = dice.randint(0, len(text))
        byte = dice.choice(b'0123456789.: ()[]abcZ-\n\0\xff')
        way = dice.randrange(4)
        text[at:at + (way != 2)] = bytes([byte]) if way in (0, 2) else b'' if way == 1 else bytes(text[at:at + 1]) * 2
    return bytes(text)


def relined(dice, problem, names, text):
    """One line more: one of a job again, with another duration or of another name."""
    lines = text.splitlines(keepends=True)
    j = dice.randrange(len(names)) if names else 0
    name, long = (names[j], problem.jobs[j].duration) if names else ('a', 1)
    more = dice.choice((line(3, name, long), line(3, name, long + 1), line(3, name[:15] + 'x', long), line(LAST_START + 1, name, long)))
    lines.insert(dice.randint(0, len(lines)), more)
    return ''.join(lines)


def drawn(dice):
    """A plan, mostly a valid one, written or read; the text mostly in order, now and then damaged; now and then a bad name, or a fault of the table."""
    crates = dice.choice(CRATES)
    problem, starts = dice.choice((planned_table, planned_table, spread_table, some_offer))(dice, crates)
    names = some_names(dice, len(starts))
    if dice.random() < 0.4:
        draft = write_draft(problem, names, starts)
    else:
        starts = [start if start <= LAST_START else OUT for start in starts]
        text = some_text(dice, problem, names, starts)
        way = dice.randrange(5)
        draft = read_draft(problem, names, damaged(dice, text) if way < 2 else relined(dice, problem, names, text) if way == 2 else text)
    if dice.random() < 0.06 and names:
        at = NAME * dice.randrange(len(names))
        draft.names = draft.names[:at] + dice.choice((*(name_table([bad]) for bad in BAD_NAMES), draft.names[:NAME])) + draft.names[at + NAME:]
    if dice.random() < 0.06:
        dice.choice(crates.faults)(draft, dice, dice.randrange(max(1, min(draft.count, len(draft.jobs)))))
    draft.names += bytes(dice.randrange(256) for _ in range(dice.choice((0, 0, 0, 1, 40))))
    draft.room += dice.choice((0, 0, 1, 3))
    draft.jobs += [Job(MOST, MOST, MOST, OUT)] * dice.choice((0, 0, 1))
    draft.fill = dice.choice((0, 0xff, 0xab, 0x01))
    return cut_to_limits(draft).call()


WALKS = (damaged_bytes, numbers, last_starts, names_in_lines, ends, twice, other_durations, orders, several_faults, bad_lines, damaged_names, bad_names, alike,
         lengths, counts, tables_and_names, every_two_faults, bounds, small_plans, wrong_plans, longest_lines, long_texts)
