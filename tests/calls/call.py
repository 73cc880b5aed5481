"""One call of the stream: its bytes, and the same in readable form. The format is that of tests/second/README.md."""
import struct
from typing import NamedTuple

KINDS = {
    1: 'check plan', 2: 'plan within bound', 3: 'least bound', 4: 'supports', 5: 'binding pairs',
    6: 'estimates', 7: 'settle', 8: 'read file', 9: 'write file', 10: 'opening facts', 11: 'why jobs clash',
    12: 'tidy file', 13: 'follow', 14: 'why job starts', 15: 'why no plan', 16: 'how late', 17: 'batches',
    18: 'read text', 19: 'write text', 20: 'edits',
}
EVENTS = {0: 'start', 1: 'finish'}
WORDS = 16
RECORD = struct.Struct('<QQQHH4s')
# A file ends with a trailer of so many bytes, the atom count at this one of them; rule 2 adds so much to it.
TRAILER, ATOMS_AT, RULE_2 = 24, 19, 128
# The bytes of a name in a name table.
NAME = 16
# Edits of an open table, 40 bytes each: what it is, a number (the atom count of a table begun, the job replaced or removed), the bound, how many
# starts are lent, two bytes of nothing, then the record, of a plan the opening facts and the goals.
EDITS, EDIT = 20, struct.Struct('<BBHHxx32s')
EDIT_NAMES = BEGIN, ADD, REPLACE, REMOVE, PLAN, LEAST = 'begin', 'add', 'replace', 'remove', 'plan', 'least bound'
ROWS = struct.Struct('<24I')
# How many places behind the starts lent to an edit are told too.
BEHIND = 8

# What the product's program can take in; a stream that asks for more would test its buffers and not the planner.
MOST_RECORDS, MOST_OUT, MOST_TABLE, MOST_FILE, MOST_TEXT, MOST_MARKS = 255, 2048, 65600, 65700, 72000, 64


class Job(NamedTuple):
    """A record as it is lent or stands in a file; facts are bits, times quarter hours."""
    conditions: int
    additions: int
    deletions: int
    duration: int
    release: int = 0


class Edit(NamedTuple):
    """One edit of an open table, or a plan of it; what it does not need is 0."""
    what: str
    number: int = 0
    record: Job = Job(0, 0, 0, 0)
    opening: int = 0
    goals: int = 0
    bound: int = 0
    lent: int = 0

    def pack(self):
        wanted = self.what in (PLAN, LEAST)
        data = struct.pack('<QQ16x', self.opening, self.goals) if wanted else RECORD.pack(*self.record, b'none')
        return EDIT.pack(EDIT_NAMES.index(self.what), self.number, self.bound, self.lent, data)


class Open(NamedTuple):
    """An open table: its atom count with the mark, how many jobs it says it has, 24 records and 24 rows."""
    atoms: int
    count: int
    jobs: tuple
    rows: tuple


class Call:
    """A header of 16 words, the lent records, the given bytes."""

    def __init__(self, head, records=(), table=b''):
        self.head = list(head) + [0] * (WORDS - len(head))
        self.records = list(records)
        self.table = bytes(table)

    def pack(self):
        """The call as it stands in the stream; the four bytes behind a release are ignored, so they are not zero."""
        self.demand_within_limits()
        records = b''.join(RECORD.pack(*record, b'none') for record in self.records)
        return struct.pack('<16Q', *self.head) + records + self.table

    def demand_within_limits(self):
        kind, head = self.head[0], self.head
        most = {8: MOST_FILE, 9: MOST_FILE, 12: MOST_FILE, 18: MOST_TEXT}.get(kind, MOST_TABLE)
        lengths = head[9:12] if kind == 10 else []
        fits = (len(self.records) <= MOST_RECORDS and len(self.table) <= most and head[2] <= 255
                and head[5] <= 65535 and max(lengths, default=0) <= MOST_MARKS
                and (kind == 10 or head[10] <= MOST_OUT) and (kind not in (13, 14) or max(head[12:14]) <= 255)
                and (kind != 16 or head[12] <= 65535) and (kind not in (18, 19) or head[6] <= len(self.table))
                and (kind != EDITS or all(edit.lent + BEHIND <= MOST_OUT for edit in edits_of(self))))
        if not fits or head[8] != len(self.records) or table_bytes(head) != len(self.table):
            raise ValueError(f'a call that does not fit: {head}')


def clash_call(one, other):
    """Why two jobs clash, each by its record."""
    return Call([11] + [0] * 7 + [2], [one, other])


def edits_call(table, edits, fill=0xab):
    """Edits, one behind the other, of one open table."""
    given = ROWS.pack(*table.rows) + b''.join(edit.pack() for edit in edits)
    return Call([EDITS, table.count, table.atoms] + [0] * 5 + [len(table.jobs), len(given), 0, fill], table.jobs, given)


def edit_in(data):
    """The edit in 40 bytes of a call."""
    what, number, bound, lent, behind = EDIT.unpack(data)
    wanted = EDIT_NAMES[what] in (PLAN, LEAST)
    opening, goals = struct.unpack('<QQ', behind[:16]) if wanted else (0, 0)
    record = Edit._field_defaults['record'] if wanted else Job(*RECORD.unpack(behind)[:5])
    return Edit(EDIT_NAMES[what], number, record, opening, goals, bound, lent)


def edits_of(call):
    """The whole edits of a call."""
    ends = range(ROWS.size + EDIT.size, len(call.table) + 1, EDIT.size)
    return [edit_in(call.table[end - EDIT.size:end]) for end in ends]


def open_table_of(call):
    """The open table that a call hands in."""
    return Open(call.head[2], call.head[1], tuple(call.records), ROWS.unpack(call.table[:ROWS.size]))


def table_in(text):
    """The open table that an answer tells, in hexadecimal: the atom count, the job count, the records without their last bytes, and the rows."""
    data = bytes.fromhex(text)
    atoms, count = struct.unpack('<BQ', data[:9])
    jobs = tuple(Job(*words) for words in struct.iter_unpack('<QQQHH', data[9:-ROWS.size]))
    return Open(atoms, count, jobs, ROWS.unpack(data[-ROWS.size:]))


def marked(atoms, gap):
    """The atom count as a call or a file has it: with the mark of the rule, whose gap is 0 or 1."""
    return atoms + RULE_2 * gap


def with_trailer(file, at, data):
    """The bytes of the trailer from a place on replaced."""
    at += len(file) - TRAILER
    return file[:at] + data + file[at + len(data):]


def file_end(call):
    """Where the file ends that a call reads or tidies, which may be behind the bytes that there are."""
    return call.head[6] if call.head[0] == 12 else len(call.table)


def atom_byte(call):
    """The atom count that a call gives, or the file that it reads or tidies, with its mark; None where there is none."""
    if call.head[0] in (8, 12):
        end = file_end(call)
        return call.table[end - TRAILER + ATOMS_AT] if TRAILER <= end <= len(call.table) else None
    return None if call.head[0] in (10, 11, 17) else call.head[2]


def with_atom_byte(call, byte):
    """The same call with another atom count."""
    if call.head[0] in (8, 12):
        end = file_end(call)
        return Call(call.head, call.records, with_trailer(call.table[:end], ATOMS_AT, bytes([byte])) + call.table[end:])
    return Call([*call.head[:2], byte, *call.head[3:]], call.records, call.table)


def with_overrun(call, most):
    """The same call with another number of quarter hours by which each job may run over."""
    return Call([*call.head[:12], most, *call.head[13:]], call.records, call.table)


def starts_of(call):
    """The starts of the plan that a call is given; the names of a text stand before them."""
    return halves(call.table[call.head[6]:] if call.head[0] == 19 else call.table)


def table_bytes(head):
    """The bytes of the given tables: one table, or the three mark tables in a row."""
    return head[9] + 2 * head[10] + head[11] if head[0] == 10 else head[9]


def read_call(stream):
    """The next call of a stream, or None at its end."""
    head = stream.read(8 * WORDS)
    if not head:
        return None
    head = struct.unpack('<16Q', head)
    records = [Job(*RECORD.unpack(stream.read(RECORD.size))[:5]) for _ in range(head[8])]
    return Call(head, records, stream.read(table_bytes(head)))


# The readable form.

def facts_text(word):
    """A word of facts; words of many facts by their bits."""
    numbers = [fact for fact in range(64) if word >> fact & 1]
    return '{' + ' '.join(map(str, numbers)) + '}' if len(numbers) <= 12 else hex(word)


def halves(table):
    return list(struct.unpack(f'<{len(table) // 2}H', table[:len(table) // 2 * 2]))


def float_text(bits):
    value = struct.unpack('<d', struct.pack('<Q', bits))[0]
    return f'{value!r} (bits {bits:016x})'


def atoms_text(byte):
    return str(byte) if byte < RULE_2 else f'{byte - RULE_2} under rule 2'


def table_text(call):
    """The jobs that count, at most the 24 that a table may have and two more, and the numbers beside."""
    head = call.head
    lines = [f'jobs {head[1]} ({head[8]} records lent), atoms {atoms_text(head[2])}, opening {facts_text(head[3])}, '
             f'goals {facts_text(head[4])}, bound {head[5]}']
    for number, job in enumerate(call.records[:min(head[1], 26)]):
        lines.append(f'job {number}: {job_text(job)}')
    return lines


def job_text(job):
    return (f'needs {facts_text(job.conditions)} adds {facts_text(job.additions)} '
            f'deletes {facts_text(job.deletions)}, {job.duration} long, released at {job.release}')


def bytes_text(name, data):
    shown = data[-400:].hex()
    return f'{name}: {len(data)} bytes' + (', the last 400: ' if len(data) > 400 else ': ') + shown


def starts_text(table):
    starts = ['out' if start == 65535 else str(start) for start in halves(table)]
    return f'{len(starts)} starts: ' + ' '.join(starts[:40])


def event_text(call):
    """The words of jobs and the event."""
    started, finished, event, job = (call.head[word] for word in (6, 7, 12, 13))
    return [f'started {facts_text(started)}, finished {facts_text(finished)}',
            f'event {event} ({EVENTS.get(event, "none")}) of job {job}']


def edit_text(edit):
    if edit.what in (PLAN, LEAST):
        return f'{edit.what}: opening {facts_text(edit.opening)}, goals {facts_text(edit.goals)}, bound {edit.bound}, {edit.lent} starts lent'
    number = {BEGIN: f' with atoms {atoms_text(edit.number)}', ADD: ''}.get(edit.what, f' job {edit.number}')
    return edit.what + number + (f': {job_text(edit.record)}' if edit.what in (ADD, REPLACE) else '')


def edits_text(call):
    """The open table, then the edits, of very many the first ones."""
    table, edits = open_table_of(call), edits_of(call)
    lines = [f'count {table.count}, atoms {atoms_text(table.atoms)}, {len(edits)} edits']
    lines += [f'job {number}, row {row:08x}: {job_text(job)}' for number, (job, row) in enumerate(zip(table.jobs, table.rows))]
    return lines + [edit_text(edit) for edit in edits[:400]]


def overrun_text(call):
    return [f'each job up to {call.head[12]} over']


def names_text(call):
    """The name table in hexadecimal, a word a name, and behind it the text."""
    names, text = call.table[:call.head[6]], call.table[call.head[6]:]
    entries = [names[at:at + NAME].hex() for at in range(0, len(names), NAME)]
    behind = [starts_text(text)] if call.head[0] == 19 else [f'text of {len(text)} bytes: {text[:1500]!r}']
    return [f'{len(names)} bytes of names: ' + ' '.join(entries[:30]), *behind]


def pairs_text(call):
    """The set and the pairs."""
    head, table = call.head, call.table
    pairs = [f'{table[at]}-{table[at + 1]}' for at in range(0, len(table) - 1, 2)]
    return [f'set {facts_text(head[6])}, pair count {head[7]}, {len(table)} bytes of pairs: ' + ' '.join(pairs[:600])]


def given_text(call):
    """What stands behind the table, by kind."""
    kind, head = call.head[0], call.head
    if kind in (1, 4, 5, 13, 16):
        more = {13: event_text, 16: overrun_text}
        return [starts_text(call.table)] + (more[kind](call) if kind in more else [])
    if kind in (7, 14):
        return pairs_text(call) + ([f'job {head[13]}'] if kind == 14 else [])
    if kind == 9:
        return buffer_text(call)
    return names_text(call) if kind in (18, 19) else []


def batches_text(call):
    """The groups, of very many the last ones."""
    before = '.. ' if len(call.table) > 40 else ''
    return [f'{call.head[8]} records lent', f'{len(call.table)} batches of the groups {before}' + ' '.join(map(str, call.table[-40:]))]


def buffer_text(call):
    return [f'bytes in use {call.head[6]}', bytes_text('buffer', call.table)]


def readings_text(call):
    head, table = call.head, call.table
    channels, levels = table[:head[9]], table[head[9]:head[9] + 2 * head[10]]
    signed = struct.unpack(f'<{head[10]}h', levels)
    return [f'facts as given {facts_text(head[3])}, mark count {head[7]}',
            f'temperature {float_text(head[6])}', f'humidity {float_text(head[12])}',
            'channels ' + ' '.join(map(str, channels)), 'levels ' + ' '.join(map(str, signed)),
            'facts ' + ' '.join(map(str, table[head[9] + 2 * head[10]:]))]


def call_text(call):
    """The call, a line a thing."""
    kind, head = call.head[0], call.head
    name = KINDS.get(kind, 'unknown')
    if kind == 10:
        lines = readings_text(call)
    elif kind == 8:
        lines = [f'{head[8]} records lent', bytes_text('file', call.table)]
    elif kind == 11:
        lines = [job_text(job) for job in call.records]
    elif kind == 12:
        lines = buffer_text(call)
    elif kind == 17:
        lines = batches_text(call)
    elif kind == EDITS and len(call.table) >= ROWS.size:
        lines = edits_text(call)
    else:
        lines = table_text(call) + given_text(call)
    if kind in (2, 3, 4, 5, 6, 7, 14, 18, 19):
        lines.append(f'{head[10]} elements lent, filled with {head[11]:02x}')
    return '\n'.join([f'{kind} {name}'] + ['  ' + line for line in lines])
