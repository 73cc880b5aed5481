"""Job files from readable text, and back; files without their older saves; and the text of batches of the house groups.

    tools/jobfile make < TEXT > FILE
    tools/jobfile show < FILE > TEXT
    tools/jobfile tidy FILE
    tools/jobfile batches 7 7 1 --bound 2880 > TEXT

The text, a line a thing; what stands behind # is a comment, and blank lines mean nothing:

    facts packed unpacked wet       names of facts, numbered in order from 0; the line may come again for more
    open packed                     the opening facts; may be left out, may come again
    goals wet                       the goals; likewise
    bound 12                        in quarter hours; exactly once
    job unpack 4: packed -> unpacked - packed
                                    name, duration: conditions -> additions - deletions; each list may be empty, and
                                    without deletions the lone - may be left out. Jobs are numbered in order from 0
    job warm 8 release 6: unpacked -> warm
                                    the same with a release, in quarter hours; where none is given it is 0
    rule 2                          a quarter hour stands between jobs that bind; rule 1, which may be left out, has none
    atoms 5                         the atom count, where it is not the number of facts named

A name begins with a letter and goes on with letters, digits, '-', '_' and '.'. Facts are named before they are used.
The text may hold anything that a file can hold: where the planner will refuse it, a warning on standard error says
so, and the file is made all the same. `show` names facts f0, f1 .. and jobs j0, j1 .. and shows the last save of a
file; a release is shown where it is not 0, the rule where it is 2.

`tidy` leaves of a file the last save alone, with its notes, and says how long it is and was. The new file is written
beside the old one under another name and takes its place when it is whole, with the same mode and owner, so a failure
leaves the old one as it was, and an interruption at most a file beside it whose name begins with a dot; nothing else may
write to the file meanwhile. What the planner would refuse is not tidied, and a file that is tidy is not written.

`batches` expands batches, each given by its house group, with the proved program batch_file, and names what that gives:
the batches a to d, stage 2 of batch a as job a2, its done fact a2-done and the clearing job behind it a2-clear. The
bound, in quarter hours, is given once, before or behind the groups. Groups that are refused are told in the words of the
refusal, and a bound that the planner will refuse gives a warning.

Status 1 with a line on standard error where the text or the file is wrong or the batches are refused, 2 where it cannot be
read or the result written, where the words of the call are wrong, and where batch_file is not built.
"""
import os
import re
import signal
import stat
import struct
import subprocess
import sys
import tempfile

NAME = re.compile(r'[A-Za-z][A-Za-z0-9_.-]*')
RECORD, TRAILER, FIELDS = 32, 24, '<QQQHH'
MOST_FACTS, MOST_JOBS, MOST_SHORT, LONGEST_FILE, LONGEST_TEXT = 64, 255, 65535, 65536, 1 << 24
# Added to the atom count of a file under rule 2.
RULE_2 = 128
HERE = os.path.dirname(os.path.realpath(__file__))
REFUSALS = os.path.join(HERE, 'refusals')
# The program that expands batches: of a byte a group it makes a job file without a bound, or the number of a refusal and its place in two bytes.
BATCH_FILE, REFUSAL = (os.path.join(HERE, 'run-program'), 'batch_file'), '<BH'
# How many facts stand in a line of the text of batches.
FACTS_IN_LINE = 12


class Wrong(Exception):
    """What is wrong with a text or a file, in words."""


class Unable(Exception):
    """What cannot be read or written, in words."""


def short(word):
    """A word as it may stand in a line."""
    return word if len(word) <= 40 else word[:40] + '..'


def number_in(text, most, what):
    digits = text.lstrip('0') or '0'
    if not text.isascii() or not text.isdigit() or len(digits) > len(str(most)) or int(digits) > most:
        raise Wrong(f'{what} is a number from 0 to {most}, not {short(text)!r}')
    return int(digits)


def only_word(words, what):
    if len(words) != 1:
        raise Wrong(f'{what} takes one number')
    return words[0]


class Text:
    """What the lines read so far have said."""

    def __init__(self):
        self.facts, self.names, self.jobs = {}, {}, []
        self.opening, self.goals, self.bound, self.rule, self.atoms = 0, 0, None, None, None

    def line(self, line):
        first, *words = line.split()
        reader = {'facts': self.read_facts, 'open': self.read_open, 'goals': self.read_goals, 'bound': self.read_bound,
                  'rule': self.read_rule, 'atoms': self.read_atoms, 'job': self.read_job}.get(first)
        if reader is None:
            raise Wrong(f'a line begins with facts, open, goals, bound, rule, atoms or job, not {short(first)!r}')
        reader(words)

    def read_facts(self, words):
        for name in words:
            demand_name(name)
            if name in self.facts:
                raise Wrong(f'fact {short(name)} is named twice')
            if len(self.facts) == MOST_FACTS:
                raise Wrong(f'fact {short(name)} is one more than {MOST_FACTS}')
            self.facts[name] = len(self.facts)

    def word(self, names):
        """The facts of a list as bits."""
        bits = 0
        for name in names:
            if name not in self.facts:
                raise Wrong(f'no fact is named {short(name)}')
            if bits >> self.facts[name] & 1:
                raise Wrong(f'fact {short(name)} stands twice in one list')
            bits |= 1 << self.facts[name]
        return bits

    def read_open(self, words):
        self.opening |= self.word(words)

    def read_goals(self, words):
        self.goals |= self.word(words)

    def read_bound(self, words):
        if self.bound is not None:
            raise Wrong('the bound is given twice')
        self.bound = number_in(only_word(words, 'bound'), MOST_SHORT, 'the bound')

    def read_rule(self, words):
        if self.rule is not None:
            raise Wrong('the rule is given twice')
        word = only_word(words, 'rule')
        digits = word.lstrip('0')
        if digits not in ('1', '2'):
            raise Wrong(f'the rule is 1 or 2, not {short(word)!r}')
        self.rule = int(digits)

    def read_atoms(self, words):
        if self.atoms is not None:
            raise Wrong('the atom count is given twice')
        self.atoms = number_in(only_word(words, 'atoms'), RULE_2 - 1, 'the atom count')

    def read_job(self, words):
        before, colon, lists = ' '.join(words).partition(':')
        name, duration, release = split_times(before.split() if colon else [])
        demand_name(name)
        if name in self.names:
            raise Wrong(f'job {short(name)} is named twice')
        if len(self.jobs) == MOST_JOBS:
            raise Wrong(f'job {short(name)} is one more than {MOST_JOBS}')
        times = number_in(duration, MOST_SHORT, 'a duration'), number_in(release, MOST_SHORT, 'a release')
        self.jobs.append((*map(self.word, split_lists(lists.split())), *times))
        self.names[name] = len(self.names)

    def file(self):
        """The bytes of the file: records, then trailer."""
        if self.bound is None:
            raise Wrong('there is no bound')
        atoms = (len(self.facts) if self.atoms is None else self.atoms) + (RULE_2 if self.rule == 2 else 0)
        records = b''.join(struct.pack(FIELDS + '4x', *job) for job in self.jobs)
        return records + struct.pack('<QQHBBI', self.opening, self.goals, self.bound, len(self.jobs), atoms, len(records))


def refusal_of(file):
    """The number and the place, 4 to 9 or 20, with which the planner refuses a file, None where it does not; 10 is the planner's own."""
    jobs, (opening, goals, bound, _, atoms), _ = take_apart(file)
    over = [number for number, job in enumerate(jobs) if (job[0] | job[1] | job[2]) >> atoms]
    over += [24] if (opening | goals) >> atoms else []
    checks = [(4, [0] if not 1 <= atoms <= MOST_FACTS else []), (5, [0] if len(jobs) > 24 else []),
              (6, [number for number, job in enumerate(jobs) if not 1 <= job[3] <= 960]),
              (20, [number for number, job in enumerate(jobs) if job[4] > 2880]), (7, over),
              (8, [number for number, job in enumerate(jobs) if job[1] & job[2]]), (9, [0] if bound > 2880 else [])]
    return next(((number, places[0]) for number, places in checks if places), None)


def refusal_text(number, place):
    """A refusal in words, those of the file that bench-plan has them from."""
    with open(REFUSALS, encoding='utf-8') as lines:
        words, where = dict(line.rstrip('\n').split('|', 1) for line in lines)[str(number)].split('|')
    return f'refusal {number}: {words}' + (f'; place {place}: {where}' if where != '0' else '')


def warning_of(number, place):
    return f'the planner will refuse this, {refusal_text(number, place)}'


def warn(file):
    """Says it where the planner will refuse a file."""
    refusal = refusal_of(file)
    if refusal:
        say('warning: ' + warning_of(*refusal))


def demand_name(name):
    if not NAME.fullmatch(name):
        raise Wrong(f"{short(name)!r} is no name: a letter, then letters, digits, '-', '_' and '.'")


def split_times(words):
    """Name, duration and release of a job, the release '0' where none is given."""
    if len(words) == 2:
        words = [*words, 'release', '0']
    if len(words) != 4 or words[2] != 'release':
        raise Wrong('a job is: job NAME DURATION release RELEASE: CONDITIONS -> ADDITIONS - DELETIONS; '
                    'the release may be left out')
    return words[0], words[1], words[3]


def split_lists(words):
    """Conditions, additions and deletions."""
    if words.count('->') != 1:
        raise Wrong('one -> stands between the conditions and the additions')
    at = words.index('->')
    conditions, effects = words[:at], words[at + 1:]
    if '-' in conditions or effects.count('-') > 1:
        raise Wrong('one lone - stands before the deletions, behind the additions')
    at = effects.index('-') if '-' in effects else len(effects)
    return conditions, effects[:at], effects[at + 1:]


def read_text(text):
    """What a text says, and the file that it describes; what is wrong is said with its line."""
    read, number = Text(), 0
    try:
        for number, line in enumerate(text.splitlines(), 1):
            line = line.split('#')[0]
            if line.strip():
                read.line(line)
        return read, read.file()
    except Wrong as wrong:
        raise Wrong(f'line {number}: {wrong}') from None


def text_in(data):
    """The text in some bytes, which may begin with a byte order mark."""
    if len(data) > LONGEST_TEXT:
        raise Wrong(f'the text has more than {LONGEST_TEXT} bytes')
    return data.decode('utf-8-sig', 'replace')


def take_apart(file):
    """The records and the numbers of the last save, and how many bytes before and behind the records are passed over."""
    if len(file) > LONGEST_FILE:
        raise Wrong(f'the file has more than {LONGEST_FILE} bytes')
    if len(file) < TRAILER:
        raise Wrong(f'the file has {len(file)} bytes, fewer than a trailer of {TRAILER}')
    opening, goals, bound, count, atoms, distance = struct.unpack('<QQHBBI', file[-TRAILER:])
    front = len(file) - TRAILER
    if not RECORD * count <= distance <= front:
        raise Wrong(f'the distance {distance} is not from {RECORD * count} to {front}')
    first = front - distance
    records = [file[at:at + RECORD] for at in range(first, first + RECORD * count, RECORD)]
    for number, record in enumerate(records):
        if any(record[28:]):
            raise Wrong(f'the four bytes behind the release of job {number} are not zero')
    jobs = [struct.unpack(FIELDS, record[:28]) for record in records]
    rule, atoms = (2, atoms - RULE_2) if atoms >= RULE_2 else (1, atoms)
    return jobs, (opening, goals, bound, rule, atoms), (first, distance - RECORD * count)


def last_save(file):
    """The last save of a file, its notes included."""
    refusal = refusal_of(file)
    if refusal:
        raise Wrong(warning_of(*refusal))
    *_, (before, _) = take_apart(file)
    return file[before:]


def fact_names(word):
    return ''.join(f' f{fact}' for fact in range(MOST_FACTS) if word >> fact & 1)


def job_line(number, job):
    conditions, additions, deletions, duration, release = job
    late = f' release {release}' if release else ''
    behind = ' -' + fact_names(deletions) if deletions else ''
    return f'job j{number} {duration}{late}:{fact_names(conditions)} ->{fact_names(additions)}{behind}'


def text_of(file):
    """The text of the last save."""
    jobs, (opening, goals, bound, rule, atoms), (before, behind) = take_apart(file)
    used = opening | goals
    for conditions, additions, deletions, *_ in jobs:
        used |= conditions | additions | deletions
    # Facts at or above the atom count have names too, so that a text can be made of any file.
    named = max(min(atoms, MOST_FACTS), used.bit_length())
    lines = [f'# passed over: {before} bytes before the records, {behind} behind them'] if before or behind else []
    if named:
        lines.append('facts' + ''.join(f' f{fact}' for fact in range(named)))
    lines += [f'atoms {atoms}'] if atoms != named else []
    lines += [f'rule {rule}'] if rule != 1 else []
    lines += ['open' + fact_names(opening), 'goals' + fact_names(goals), f'bound {bound}']
    lines += [job_line(number, job) for number, job in enumerate(jobs)]
    return ''.join(line + '\n' for line in lines)


def stages_of(goals, atoms):
    """The stage of each done fact, from fact 1 on: a batch ends at its goal, and its letter goes by the goals below."""
    stages, letter, before = {}, ord('a'), 0
    for fact in range(1, atoms):
        stages[fact] = f'{chr(letter)}{fact - before}'
        if goals >> fact & 1:
            letter, before = letter + 1, fact
    return stages


def batch_facts(word, stages):
    """The done facts of a word, by their stages, and behind them the bay, which is fact 0."""
    done = (f' {stage}-done' for fact, stage in stages.items() if word >> fact & 1)
    return ''.join(done) + (' bay' if word & 1 else '')


def batch_job_line(job, stages):
    """A stage has the name of what it adds, a clearing job, which adds the bay, that of the stage that it needs."""
    conditions, additions, deletions, duration, _ = job
    clears = additions == 1
    done = (conditions if clears else additions).bit_length() - 1
    needs, adds, deletes = (batch_facts(word, stages) for word in (conditions, additions, deletions))
    return f'job {stages[done]}{"-clear" if clears else ""} {duration}:{needs} ->{adds}' + (f' -{deletes}' if deletes else '')


def batches_text(file):
    """The text of a job file that batches gave, with names that say batch and stage."""
    jobs, (opening, goals, bound, _, atoms), _ = take_apart(file)
    stages = stages_of(goals, atoms)
    names = ['bay', *(f'{stage}-done' for stage in stages.values())]
    lines = ['facts ' + ' '.join(names[at:at + FACTS_IN_LINE]) for at in range(0, atoms, FACTS_IN_LINE)]
    lines += ['open' + batch_facts(opening, stages), 'goals' + batch_facts(goals, stages), f'bound {bound}']
    lines += [''] if jobs else []
    lines += [batch_job_line(job, stages) for job in jobs]
    return ''.join(line + '\n' for line in lines)


def expanded(groups, bound):
    """The job file of these batches with this bound, as batch_file makes it."""
    done = subprocess.run(BATCH_FILE, input=bytes(groups), capture_output=True)
    if done.returncode:
        raise Unable(done.stderr.decode('utf-8', 'replace').rstrip('\n') or f'batch_file ended with status {done.returncode}')
    if len(done.stdout) == struct.calcsize(REFUSAL):
        raise Wrong(refusal_text(*struct.unpack(REFUSAL, done.stdout)))
    return done.stdout[:-8] + struct.pack('<H', bound) + done.stdout[-6:]


def taken(most):
    """Standard input up to one byte more than may be."""
    parts, left = [], most + 1
    try:
        while left and (part := os.read(0, left)):
            parts.append(part)
            left -= len(part)
    except OSError as error:
        raise Unable(f'standard input cannot be read: {error.strerror}') from None
    return b''.join(parts)


def give(result):
    try:
        while result:
            result = result[os.write(1, result):]
    except OSError as error:
        raise Unable(f'standard output cannot be written: {error.strerror}') from None


def contents(name):
    """The bytes of a file, up to one more than may be."""
    try:
        if not stat.S_ISREG(os.stat(name).st_mode):
            raise Unable(f'{name} is no file')
        with open(name, 'rb') as file:
            return file.read(LONGEST_FILE + 1)
    except OSError as error:
        raise Unable(f'{name} cannot be read: {error.strerror}') from None


def fill_like(old, handle, data):
    """The data on the disk in an open file that has the old one's owner and mode."""
    was = os.stat(old)
    with os.fdopen(handle, 'wb') as file:
        os.fchown(handle, was.st_uid, was.st_gid)
        os.fchmod(handle, stat.S_IMODE(was.st_mode))
        file.write(data)
        file.flush()
        os.fsync(handle)


def put_in_place(name, data):
    """The data under a name that a file has already, which stands until the new one is whole; a link goes on leading to it."""
    old, new = os.path.realpath(name), None
    try:
        handle, new = tempfile.mkstemp(prefix=f'.{os.path.basename(old)[:40]}-', dir=os.path.dirname(old))
        fill_like(old, handle, data)
        os.replace(new, old)
    except OSError as error:
        if new:
            os.unlink(new)
        raise Unable(f'{name} is as it was, a new file cannot be written: {error.strerror}') from None


def say(line, tool='jobfile'):
    # Where standard error is closed too there is nobody to tell.
    try:
        os.write(2, f'{tool}: {line}\n'.encode('utf-8', 'backslashreplace'))
    except OSError:
        pass


def make():
    _, file = read_text(text_in(taken(LONGEST_TEXT)))
    warn(file)
    give(file)


def show():
    give(text_of(taken(LONGEST_FILE)).encode())


def tidy(name):
    file = contents(name)
    save = last_save(file)
    if len(save) < len(file):
        put_in_place(name, save)
    give(f'{len(save)} bytes, {len(file)} before\n'.encode())


def batches(words, at):
    """The groups are all words but two: --bound, which stands at a place, and the bound behind it."""
    try:
        bound = number_in(words[at + 1], MOST_SHORT, 'the bound')
        groups = [number_in(word, 255, 'a group') for word in words[:at] + words[at + 2:]]
    except Wrong as wrong:
        raise Unable(wrong) from None
    file = expanded(groups, bound)
    warn(file)
    give(batches_text(file).encode())


def action_of(words):
    """What the words ask for; None where they ask for nothing there is."""
    if len(words) == 2 and words[0] == 'tidy':
        return lambda: tidy(words[1])
    if words[:1] == ['batches'] and words.count('--bound') == 1 and words[-1] != '--bound':
        return lambda: batches(words[1:], words.index('--bound') - 1)
    return {('make',): make, ('show',): show, ('--help',): lambda: give(__doc__.encode())}.get(tuple(words))


def main(words):
    signal.signal(signal.SIGINT, signal.SIG_DFL)
    action = action_of(words)
    if action is None:
        say('usage: jobfile make < TEXT > FILE, jobfile show < FILE > TEXT, jobfile tidy FILE, or jobfile batches GROUP.. --bound BOUND > TEXT; '
            'jobfile --help says more')
        return 2
    try:
        action()
    except Wrong as wrong:
        say(wrong)
        return 1
    except (Unable, OSError) as error:
        say(error)
        return 2
    return 0


if __name__ == '__main__':
    sys.exit(main(sys.argv[1:]))
