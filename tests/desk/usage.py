"""Wrong arguments at each place, the help and its examples, and the verbs that the help and the pages name."""
import re
import shlex
import shutil
from functools import partial

from .drive import COUNTER, START, TOP, Finding, counter, differs, held, run, same, true
from .room import OLDER, contents
from .sheets import A, B

# Each verb with its arguments, as the issue and the specification of the command have them.
VERBS = {
    'check': 'FILE',
    'answer': 'FILE OFFICE PERSON DEED FOLIO',
    'joint': 'FILE RULE PERSON DEED FOLIO',
    'witness': 'FILE OFFICE grant|ban PERSON DEED FOLIO',
    'path': 'FILE OFFICE grant|ban PERSON DEED FOLIO NODE..',
    'persons': 'FILE OFFICE CATEGORY',
    'holders': 'FILE OFFICE DEED FOLIO',
    'unreached': 'FILE OFFICE',
    'conflict': 'FILE OFFICE',
    'duties': 'FILE OFFICE DEED DEED',
    'redundant': 'FILE OFFICE',
    'find': 'FIRST SECOND person|category|deed|folio NUMBER[/VARIANT]',
    'join': 'FIRST SECOND OUT',
    'take': 'FILE OFFICE OUT',
    'add': 'FILE OUT LINE [OFFICES]',
    'read': 'LISTING OUT',
    'list': 'FILE',
    'watch': 'FILE TIMEOUT TRACE [--text]',
    'show': 'FILE',
    'draw': 'FILE OFFICE [grant|ban PERSON DEED FOLIO]',
}
RIGHT = {'FILE': 'a', 'FIRST': 'a', 'SECOND': 'b', 'LISTING': 'listing', 'OUT': 'out', 'grant|ban': 'grant',
         '[grant|ban': 'grant', 'person|category|deed|folio': 'person', 'NUMBER[/VARIANT]': '11', 'NODE..': '11',
         'LINE': 'person 13', 'TRACE': 'trace', '[--text': '--text'}

NO_NUMBER = 'is no number from 0 to 4294967295'
NO_KIND = 'is neither grant nor ban'
NO_RULE = 'is no rule: 1 grant-first, 2 deny-first, 3 first-applicable'
NO_NODE = 'is no node: [person|category|deed|folio] NUMBER[/VARIANT]'
NO_TYPE = 'is no type: person, category, deed or folio'
NO_IDENTITY = 'is no identity: NUMBER or NUMBER/VARIANT'
NO_NAME = "is no file's name for the result"
NO_OFFICES = 'is no list of offices: numbers from 1 to 32 with commas, none twice'
NO_OPTION = 'is not the option --text'
ONCE = 'can be read only once'

# A sign, a space, another base, a separator or a number too large make no number.
NUMBERS = ['', 'eleven', '-1', '+1', ' 1', '1 ', '1.0', '0x1', '1,1', '1e0', '4294967296', '4294967297', '18446744073709551617',
           '9' * 40, '1\n', '１', '--help', '--json']
NO_SLASHES = ['x', '11/', '/1', '/', '11/x', '11//1', '11/1/1', '-1', '4294967296', '11/4294967296']
SPACED = ['', 'x/1', '11/-1', ' 11', '11 ', '11 /1', '11/ 1', 'person 11']
WRONG = {
    '[grant|ban': [(word, NO_KIND) for word in ('', 'x', 'Grant')],
    'grant|ban': [(word, NO_KIND) for word in ('grants', 'Grant', 'gran', '', '0', '1', 'bans', 'grant ', 'grant,ban')],
    'RULE': [(word, NO_RULE) for word in ('', 'x', 'grant', 'Grant-first', 'grant_first', 'deny', '-1', ' 1', '4294967296')],
    'person|category|deed|folio': [(word, NO_TYPE) for word in ('', 'x', 'persons', 'Person', '1', 'deed ')],
    'NUMBER[/VARIANT]': [(word, NO_IDENTITY) for word in NO_SLASHES + SPACED],
    'NODE..': [(word, NO_NODE) for word in NO_SLASHES + ['>', 'person', 'Person', 'folio']],
    'OUT': [('-', NO_NAME)],
    '[--text': [(word, NO_OPTION) for word in ('', 'text', '-text', '--texts', '--Text', '--text ', '--json', '1')],
    '[OFFICES': [(word, NO_OFFICES) for word in ('', 'x', '0', '33', '-1', '+1', ' 1', '1 ', ',', '1,', ',1', '1,,2', '1, 2', '1 2',
                                                 '1;2', '1-2', '1/2', '1,1', '2,1,2', '1,01', '1,33', '1,x', '4294967297')],
}
# In `path`: lines of several words that are no nodes; which of the words is told is left to the command.
NO_NODES = ['', ' ', '> 11', '11 >', '11 > > 12', '11 >> 12', 'person person 11', 'person > 11', 'person 11 category',
            'office 1', 'person 11 and 12', 'person 11, category 21', '11 / 1']


def bad(verb, word, fault):
    """What bad usage of a verb says."""
    return f"counter: '{word}' {fault}\nusage: counter {verb} {VERBS[verb]}\nTry 'counter {verb} --help'.\n"


def no_verb(said):
    return f"counter: {said}\nusage: counter [--json] VERB ARGUMENT..\nTry 'counter --help'.\n"


def right(verb):
    return [RIGHT.get(name, '1') for name in VERBS[verb].rstrip(']').split()] if verb != 'find' else ['a', 'b', 'person', '11']


def places(verb):
    """Each argument's place with what may stand wrongly there."""
    for place, name in enumerate(VERBS[verb].split()):
        name = name if name.endswith('VARIANT]') else name.rstrip(']')
        if name in WRONG:
            yield place, WRONG[name]
        elif name not in ('FILE', 'FIRST', 'SECOND', 'LISTING', 'LINE', 'TRACE'):
            yield place, [(word, NO_NUMBER) for word in NUMBERS]


def desk(room):
    """A folder with A, B, a listing, a trace and an older OUT."""
    made = room.folder()
    (made / 'a').write_bytes(A.file())
    (made / 'b').write_bytes(B.file())
    (made / 'listing').write_bytes(b'person 11\n')
    (made / 'trace').write_bytes(b'10 start 41\n')
    (made / 'out').write_bytes(OLDER)
    return made


def wrong_words(verb, room):
    """One wrong word at a time, in text and in JSON, before a file is read: the file is missing in every other run."""
    cwd = desk(room)
    for place, words in places(verb):
        for turn, (word, fault) in enumerate(words):
            args = right(verb)
            args[place] = word
            if turn % 2:
                args[0] = 'none'
            ran = counter(*(['--json'] if turn % 3 == 2 else []), verb, *args, cwd=cwd)
            yield held(f'{verb} with {word!r} at {place + 1}', ran, 2, '', bad(verb, word, fault))
    yield same(f'{verb}, wrong words: the folder is as it was', contents(desk(room)), contents(cwd))


def wrong_counts(verb, room):
    """Too few arguments, and too many."""
    cwd, whole = desk(room), right(verb)
    enough = {'draw': (2, 6), 'add': (3, 4), 'watch': (3, 4)}.get(verb, (len(whole),))
    for count in range(len(whole)):
        if count not in enough:
            for option in [], ['--json']:
                yield held(f'{verb} with {count} arguments', counter(*option, verb, *whole[:count], cwd=cwd), 2, '',
                           bad(verb, verb, 'has too few arguments'))
    if verb != 'path':
        for more in ['1'], ['1', '2'], ['--help']:
            ran = counter(verb, *whole, *more, cwd=cwd)
            yield held(f'{verb} with too many', ran, 2, '', bad(verb, verb, 'has too many arguments'))
    yield same(f'{verb}, wrong counts: the folder is as it was', contents(desk(room)), contents(cwd))


def wrong_nodes(room):
    cwd = desk(room)
    start, end = bad('path', '\0', NO_NODE).split('\0')
    for line in NO_NODES:
        ran = counter('path', 'a', '1', 'grant', '11', '31', '41', line, cwd=cwd)
        said = ran.err.decode()
        yield Finding(f'path with {line!r}', differs('status', 2, ran.status) + differs('output', b'', ran.out) +
                      ('' if said.startswith(start) and said.endswith(end) else f'  errors: {said!r}\n'))


def read_once(room):
    cwd = desk(room)
    for args in (('find', '-', '-', 'person', '11'), ('join', '-', '-', 'out'), ('watch', '-', '60', '-'),
                 ('watch', '-', '60', '-', '--text')):
        yield held(f'{args[0]} - -', counter(*args, cwd=cwd, stdin=A.file()), 2, '', bad(args[0], '-', ONCE))
    yield same('- twice: the folder is as it was', contents(desk(room)), contents(cwd))


def verbs_unknown():
    for args in (), ('--json',):
        yield held(f'no verb behind {args}', counter(*args), 2, '', no_verb('no verb'))
    for word in '', 'ask', 'Check', 'checks', 'chec', 'judge', 'a', '-h', '--jso', '-':
        for args in (word,), (word, 'check', 'a'), ('--json', word), (word, '--help'):
            yield held(f'verb {args}', counter(*args), 2, '', no_verb(f"'{word}' is no verb"))
    yield held('--json twice', counter('--json', '--json', 'check', 'a'), 2, '', no_verb("'--json' is no verb"))


# ---- Help

def help_of(verb, room):
    """The usage line, what it tells, and an example that prints what stands under it."""
    ran = counter(verb, '--help')
    said = ran.out.decode()
    yield Finding(f'{verb} --help', differs('status', 0, ran.status) + differs('errors', b'', ran.err) +
                  differs('usage line', f'usage: counter {verb} {VERBS[verb]}', said.split('\n')[0]))
    yield held(f'--json {verb} --help', counter('--json', verb, '--help'), 0, said)
    yield true(f'{verb} --help names refusals', 'efus' in said, said)
    heading, _, example = said.partition('\nExample:\n')
    line, _, under = example.partition('\n')
    one = said.count('$ counter ') == 1 and line.lstrip().startswith('$ counter ')
    yield true(f'{verb} --help has one example', heading and one, said)
    indent = line[:len(line) - len(line.lstrip())]
    cwd = room.folder() / 'sheets'
    shutil.copytree(TOP / 'sheets', cwd)
    words = shlex.split(line.strip())[2:]
    yield true(f'{verb} --help: the example is of {verb}', verb in words[:2], line)
    wanted = ''.join(each.removeprefix(indent) + '\n' for each in under.rstrip('\n').split('\n'))
    ran = counter(*words, cwd=cwd)
    yield held(f'{verb} --help: {line.strip()}', ran, 1 if wanted.startswith('refused') else 0, wanted)


def help_of_all():
    ran = counter('--help')
    yield Finding('--help', differs('status', 0, ran.status) + differs('errors', b'', ran.err))
    said = ran.out.decode()
    for part in 'usage: counter [--json] VERB ARGUMENT..', '--json', '--help', '--version':
        yield true(f'--help names {part}', part in said, said)
    version = re.search(r'#define TORMUKAI_VERSION "(.*)"', (TOP / 'include' / 'tormukai.h').read_text()).group(1)
    yield held('--version', counter('--version'), 0, f'counter {version}\n')
    ran = run(['bash', 'tools/counter', '--version'], cwd=TOP)
    yield held('tools/counter runs it', ran, 0, f'counter {version}\n')


# ---- Pages

def examples():
    """The examples of docs/COUNTER.md: a line of the shell, and what stands under it. Pictures are tests/picture's."""
    page = (TOP / 'docs' / 'COUNTER.md').read_text()
    for block in re.findall(r'(?:^    .*\n)+', page, re.M):
        for example in re.findall(r'^    \$ (.*)\n((?:    (?!\$ ).*\n)*)', block, re.M):
            if re.match(r'counter|printf|cat', example[0]) and '| dot' not in example[0]:
                yield example[0], re.sub(r'^    ', '', example[1], flags=re.M)


def examples_are_true(room):
    """Each prints what stands under it, standard error included, in the folder sheets/."""
    cwd, commands = room.folder() / 'sheets', room.folder()
    shutil.copytree(TOP / 'sheets', cwd)
    (commands / 'counter').write_text(f'#!/bin/sh\nexec {shlex.join([*START, str(COUNTER)])} "$@"\n')
    (commands / 'counter').chmod(0o755)
    tried = list(examples())
    shown = {line.split()[1] for line, _ in tried}
    yield same('verbs without an example in docs/COUNTER.md', set(), set(VERBS) - {'draw'} - shown)
    for line, under in tried:
        ran = run(['bash', '-c', f'PATH={shlex.quote(str(commands))}:$PATH; {{ {line}; }} 2>&1'], cwd=cwd)
        yield same(f'docs/COUNTER.md: {line}', under.encode(), ran.out)


def accepted(word):
    """Whether the command has this verb."""
    said = counter(word).err.decode().split('\n')[0]
    return said == f"counter: '{word}' has too few arguments"


def pages():
    """The texts that name the verbs, each as plain lines: the help, the man page's lines of several fonts, docs/COUNTER.md."""
    yield '--help', counter('--help').out.decode()
    fonts = re.findall(r'^\.BI (.*)$', (TOP / 'counter' / 'counter.1').read_text(), re.M)
    plain = [re.findall(r'"([^"]*)"|(\S+)', re.sub(r'\\f[BIRP]|\\', '', line)) for line in fonts]
    yield 'the man page', '\n'.join(''.join(quoted or bare for quoted, bare in words) for words in plain)
    yield 'docs/COUNTER.md', (TOP / 'docs' / 'COUNTER.md').read_text().replace('\\|', '|')


def verbs_in(page):
    """The words that stand as a verb does: first in code, or behind `counter`, and followed by an argument."""
    return set(re.findall(r'(?:`|\bcounter )([a-z]+) +[A-Z]{3,}', page)) - {'counter'}


def same_verbs():
    """The command, the help, the man page and docs/COUNTER.md have the same verbs, with the same arguments."""
    named = dict(pages())
    candidates = set().union(VERBS, *map(verbs_in, named.values()), ('judge', 'ask', 'help', 'version', 'json'))
    has = {word for word in candidates if accepted(word)}
    yield same('the verbs of the issue', sorted(VERBS), sorted(has))
    for where, page in named.items():
        yield same(f'the verbs that {where} names', sorted(has), sorted(verbs_in(page)))
        called = [f'{verb} {args}' for verb, args in VERBS.items()]
        missing = [call for call in called if not re.search(re.escape(call) + r'(?!\w)', page)]
        yield same(f'the arguments that {where} does not name', [], missing)


def tests(room):
    for verb in VERBS:
        yield partial(wrong_words, verb, room)
        yield partial(wrong_counts, verb, room)
        yield partial(help_of, verb, room)
    yield partial(wrong_nodes, room)
    yield partial(read_once, room)
    yield verbs_unknown
    yield help_of_all
    yield same_verbs
    yield partial(examples_are_true, room)
