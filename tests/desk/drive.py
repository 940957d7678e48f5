"""Runs the command, and holds each run to its whole output, its whole standard error and its exit status."""
import json
import os
import pathlib
import shutil
import subprocess
from typing import NamedTuple

from .expect import Refused, reply, text

TOP = pathlib.Path(__file__).resolve().parent.parent.parent
COUNTER = TOP / 'target' / 'counter' / 'counter'
LONGEST = 300  # seconds: a run that takes longer does not end


class Ran(NamedTuple):
    status: int
    out: bytes
    err: bytes


class Finding(NamedTuple):
    """One comparison: what it was about, and what is wrong, '' where nothing is."""
    label: str
    fault: str


def start_of_x86():
    """What tools/x86 puts before a program. Here it is found once, which saves a shell for each run."""
    kit = pathlib.Path(shutil.which('rt')).resolve().parent.parent / 'toolchain'
    emulator = kit / 'bin' / 'qemu-x86_64'
    start = [str(kit / 'lib' / 'ld-linux-x86-64.so.2'), '--library-path', str(kit / 'lib')]
    return ([str(emulator)] if os.access(emulator, os.X_OK) else []) + start


START = start_of_x86()


def run(command, stdin=b'', before='', stdout=subprocess.PIPE, **how):
    """Runs a command. BEFORE is what a shell does first, as 'ulimit -f 0'. Standard input: bytes, or a file that is open."""
    if before:
        command = ['bash', '-c', before + '; exec "$@"', 'bash', *command]
    given = {'input': stdin} if isinstance(stdin, bytes) else {'stdin': stdin}
    try:
        done = subprocess.run(command, stdout=stdout, stderr=subprocess.PIPE, timeout=LONGEST, check=False, **given, **how)
    except subprocess.TimeoutExpired:
        return Ran(-1, b'', f'did not end within {LONGEST} seconds'.encode())
    return Ran(done.returncode, done.stdout or b'', done.stderr)


def counter(*args, **how):
    return run([*START, COUNTER, *args], **how)


def encoded(wanted):
    return wanted if isinstance(wanted, bytes) else os.fsencode(wanted)


def differs(what, wanted, got):
    return '' if wanted == got else f'  {what}: wanted {clip(wanted)}\n  {" " * len(what)}  got    {clip(got)}\n'


def clip(value):
    said = repr(value)
    return said if len(said) < 600 else said[:400] + ' .. ' + said[-150:]


def held(label, ran, status, out='', err=''):
    """A run against all that is wanted of it."""
    return Finding(label, differs('status', status, ran.status) + differs('output', encoded(out), ran.out) +
                   differs('errors', encoded(err), ran.err))


def same(label, wanted, got):
    return Finding(label, differs('value', wanted, got))


def true(label, good, fault='not so'):
    return Finding(label, '' if good else f'  {fault}\n')


# ---- JSON

def no_twins(pairs):
    if len({name for name, _ in pairs}) != len(pairs):
        raise ValueError('a name stands twice')
    return dict(pairs)


def parsed(line):
    """The object on the line, or what is wrong with it. A parser of the outside world reads it."""
    try:
        read = json.loads(line.decode('utf-8'), object_pairs_hook=no_twins)
    except ValueError as fault:
        return f'{fault}: {line!r}'
    if line.count(b'\n') != 1 or not line.endswith(b'\n'):
        return f'not one line: {line!r}'
    return read


def in_order(value):
    """Objects as lists of pairs, so that the order of names counts."""
    if isinstance(value, dict):
        return [(name, in_order(part)) for name, part in value.items()]
    if isinstance(value, list):
        return [in_order(part) for part in value]
    return (type(value).__name__, value)  # so that true is not 1, and 1.0 is not 1


def held_json(label, ran, status, wanted, err=''):
    return Finding(label, differs('status', status, ran.status) + differs('errors', encoded(err), ran.err) +
                   differs('object', in_order(wanted), in_order(parsed(ran.out))))


# ---- A question

def status_of(outcome):
    return 1 if isinstance(outcome, Refused) else 0


SHOWN = set()  # (verb, refusal number or 0, whether it has a sheet, form) of every question that was answered as wanted


def shown(finding, verb, outcome, form):
    if not finding.fault:
        number, sheet = (outcome.number, outcome.sheet) if isinstance(outcome, Refused) else (0, 0)
        SHOWN.add((verb, number, sheet != 0, form))
    return finding


def ask_text(label, verb, args, outcome, err='', out=None, **how):
    ran = counter(verb, *args, **how)
    finding = held(f'{label} [{verb}]', ran, status_of(outcome), text(reply(verb, outcome), out), err)
    return shown(finding, verb, outcome, 'text')


def ask_json(label, verb, args, outcome, err='', **how):
    ran = counter('--json', verb, *args, **how)
    finding = held_json(f'{label} [{verb}, JSON]', ran, status_of(outcome), reply(verb, outcome), err)
    return shown(finding, verb, outcome, 'JSON')


def ask(label, verb, args, outcome, err='', **how):
    """A question in text and in JSON; both are wanted to say the same."""
    args = [str(each) if isinstance(each, (int, pathlib.Path)) else each for each in args]
    return [ask_text(label, verb, args, outcome, err, **how), ask_json(label, verb, args, outcome, err, **how)]


def outcome_of(question, *args):
    """What the model says: the fields, or the refusal."""
    try:
        return question(*args)
    except Refused as refused:
        return refused
