"""Plans as text, a line a step, as the planners of competitions write and take them.

    tools/plan-text write JOBS > PLAN
    tools/plan-text check JOBS PLAN

JOBS is the readable text of jobs that `tools/jobfile --help` explains; its job names are those of the plan. One of JOBS and
PLAN may be -, which is standard input.

A plan has a line for each of its jobs, start, name and duration, blanks as here, and a newline at the end of each:

    4.000: (warm) [8.000]

A number is 1 to 4 digits and, if wanted, a point and one or more zeros; a start is at most 2880. A name has 1 to 16 small
letters, digits or hyphens. Lines stand in any order; no lines are the plan without jobs.

`write` plans the jobs within the bound of JOBS and writes the plan of the least bound, by start, then job, each number with
three zeros. `check` reads a plan, checks it within the bound of JOBS, and prints `valid`. Both ask the proved program
plan_text, which 'tools/build plan_text' builds.

Status 0 where the plan is written or valid. Status 1 with a line on standard error where JOBS is wrong, a job's name has more
than 16 letters, PLAN has more than 65536 bytes, or the planner refuses: the refusal in words, with the job, the fact or the
line that it names, lines counted from 0. Status 2 where something cannot be read or written, where the words of the call are
wrong, and where plan_text is not built.
"""
import os
import signal
import struct
import subprocess
import sys

sys.dont_write_bytecode = True
import jobfile
from jobfile import LONGEST_TEXT, Unable, Wrong

LONGEST_NAME, LONGEST_PLAN = 16, 65536
# The program that plans and checks: a byte for what is asked, two lengths, the job file, the names, the plan.
PLAN_TEXT, ASKED = (os.path.join(jobfile.HERE, 'run-program'), 'plan_text'), '<BII'
WRITE, CHECK = 0, 1
# The refusals whose place is a job, a fact or a line; that of 7 is a job, or 24.
OF_JOB, OF_FACT, OF_LINE = (6, 7, 8, 11, 12, 13, 20, 21, 33), (14,), (23, 24, 25, 26)


def given(name, most):
    """The bytes of a file, or of standard input for -, up to one more than may be."""
    if name == '-':
        return jobfile.taken(most)
    try:
        with open(name, 'rb') as file:
            return file.read(most + 1)
    except OSError as error:
        raise Unable(f'{name} cannot be read: {error.strerror}') from None


def jobs_in(name):
    """What a text of jobs says, its job file and its name table."""
    read, file = jobfile.read_text(jobfile.text_in(given(name, LONGEST_TEXT)))
    for job in read.names:
        if len(job) > LONGEST_NAME or not job.isascii():
            raise Wrong(f'job {jobfile.short(job)}: in a plan as text a name has at most {LONGEST_NAME} letters')
    return read, file, b''.join(job.encode().ljust(LONGEST_NAME, b'\0') for job in read.names)


def what_stands_at(number, place, read, plan):
    """The name of the job or of the fact, or the line, at the place of a refusal; None where the place is none of these."""
    table = read.names if number in OF_JOB else read.facts if number in OF_FACT else ()
    if number in OF_LINE:
        table = [ascii(jobfile.short(line.decode('latin-1'))) for line in plan.split(b'\n')]
    return list(table)[place] if place < len(table) and (number, place) != (7, 24) else None


def refused(answer, read, plan):
    """A refusal of the program in words."""
    number, place = map(int, answer.split()[1:])
    what = what_stands_at(number, place, read, plan)
    return Wrong(jobfile.refusal_text(number, place) + (f': {what}' if what else ''))


def answer_of(asked, name, plan=b''):
    """What the program says to the jobs of a text, and to a plan."""
    read, file, names = jobs_in(name)
    done = subprocess.run(PLAN_TEXT, input=struct.pack(ASKED, asked, len(file), len(names)) + file + names + plan, capture_output=True)
    if done.returncode:
        raise Unable(done.stderr.decode('utf-8', 'replace').rstrip('\n') or f'plan_text ended with status {done.returncode}')
    if done.stdout.startswith(b'refused '):
        raise refused(done.stdout, read, plan)
    return done.stdout


def write(name):
    jobfile.give(answer_of(WRITE, name))


def check(name, plan_name):
    plan = given(plan_name, LONGEST_PLAN)
    if len(plan) > LONGEST_PLAN:
        raise Wrong(f'the plan has more than {LONGEST_PLAN} bytes')
    answer = answer_of(CHECK, name, plan)
    if answer != b'valid\n':
        raise Unable('the answer of plan_text is not whole')
    jobfile.give(answer)


def action_of(words):
    """What the words ask for; None where they ask for nothing there is."""
    if len(words) == 2 and words[0] == 'write':
        return lambda: write(words[1])
    if len(words) == 3 and words[0] == 'check' and words.count('-') < 2:
        return lambda: check(*words[1:])
    return (lambda: jobfile.give(__doc__.encode())) if words == ['--help'] else None


def main(words):
    signal.signal(signal.SIGINT, signal.SIG_DFL)
    action = action_of(words)
    if action is None:
        jobfile.say('usage: plan-text write JOBS > PLAN, or plan-text check JOBS PLAN, where one may be -; plan-text --help says more', 'plan-text')
        return 2
    try:
        action()
    except Wrong as wrong:
        jobfile.say(wrong, 'plan-text')
        return 1
    except (Unable, OSError) as error:
        jobfile.say(error, 'plan-text')
        return 2
    return 0


if __name__ == '__main__':
    sys.exit(main(sys.argv[1:]))
