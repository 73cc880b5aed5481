"""A stream of calls with the answers that it must give, held to what a program says."""
import os
import shlex
import subprocess
import sys

from call import call_text

ROOT = os.path.dirname(os.path.dirname(os.path.dirname(os.path.abspath(__file__))))
PRODUCT = os.environ.get('PRODUCT') or f'{ROOT}/tools/run-program {ROOT}/target/c/calls'
SHOWN = 300


def refused(number, place=0, second=0):
    """What a refusal says, in the order in which an answer begins; refusal 12 alone has a second number."""
    return number, second, place


DONE = refused(0)


def answers_to(calls):
    """What PRODUCT (the C library's own program) says, a line a call."""
    given = b''.join(call.pack() for call in calls)
    told = subprocess.run(shlex.split(PRODUCT), input=given, stdout=subprocess.PIPE, check=True).stdout.decode().split('\n')
    if len(told) != len(calls) + 1 or told[-1]:
        sys.exit(f'{len(told) - 1} answers to {len(calls)} calls')
    return told[:-1]


def hold(name, stream):
    """Compares what PRODUCT says line by line; ends with status 1 at the first that differs."""
    for (call, wanted), answer in zip(stream, answers_to([call for call, _ in stream])):
        if answer != wanted:
            sys.exit(f'{name}: a call differs\n{call_text(call)}\nwanted: {wanted[:SHOWN]}\ngot:    {answer[:SHOWN]}')
    print(f'{name}: {len(stream)} calls as the scope says')
