#!/usr/bin/env python3
"""The kit's own functions, for tools/ and tests/: how a crate is checked, and where the libraries below it are built."""
import hashlib
import importlib.machinery
import importlib.util
import os
import pathlib
import shutil
import subprocess
import sys

TOP = pathlib.Path(__file__).resolve().parent.parent
# The library runs on every x86-64 processor, as it always did; the kit's own choice is a newer one.
PROCESSOR = ['--cpu', 'x86-64']
NOTED = TOP / 'target' / 'proved'


def home():
    """The folder of the kit, by the path of its command."""
    found = shutil.which('rt')
    if not found:
        sys.exit("the kit's command, rt, is not on the PATH")
    return pathlib.Path(found).resolve().parent.parent


def module(name, path):
    """A script as a module."""
    loader = importlib.machinery.SourceFileLoader(name, str(path))
    sys.modules[name] = importlib.util.module_from_spec(importlib.util.spec_from_loader(name, loader))
    loader.exec_module(sys.modules[name])
    return sys.modules[name]


def rt():
    """The command rt as a module."""
    if 'rt' not in sys.modules:
        module('rt', home() / 'bin' / 'rt')
        sys.modules['rt'].rtlib.guarded()
        sys.modules['rt'].share_work(False)
    return sys.modules['rt']


def crates():
    """The crates of the repository, lowest first."""
    return sorted(rt().rtlib.crates_below(str(TOP)), key=lambda crate: len(crate.below()))


def sum_now():
    """A sum of all that proofs read: the kit, crates.txt and the crates' files."""
    return hashlib.sha256(repr([rt().stamp_of(crate, {}) for crate in crates()]).encode()).hexdigest()


def note():
    """Notes that rt ci proved these files just now, so that the libraries that it left in out/ are theirs."""
    NOTED.parent.mkdir(exist_ok=True)
    NOTED.write_text(sum_now(), encoding='utf-8')


def is_left(crate):
    """Whether the libraries below the crate are those that rt ci left, of the files that are there now. They have no stamp."""
    left = [os.path.isdir(each.rlib) and not os.path.exists(f'{each.folder}/out/rlib/stamp') for each in crate.below()]
    return all(left) and NOTED.is_file() and NOTED.read_text(encoding='utf-8') == sum_now()


def ready(crate):
    """Sees that each library below the crate is built, of the files that are there now."""
    for each in [] if is_left(crate) else crate.below():
        if each.build_rlib(['--jobs', '1'], anew=False):
            sys.exit(f'{each.name} is not proved')


def built(crate, toolchain, out):
    """Proves a static library over the libraries that stand below it, and compiles it. The exit status is rattle's."""
    words = [*crate.words(['--jobs', '2', *PROCESSOR], keeps=False), '--toolchain', toolchain, '--backend', 'llvm', '-o', out]
    return crate.call(rt().rtlib.RATTLE, 'build', *words)


def archive(name, toolchain='', out=''):
    """Proves a static library and makes its archive, as rt lib does; right after rt ci over the libraries that it left.
    With another toolchain than the kit's, it is made elsewhere."""
    crate = next(each for each in crates() if each.name == name)
    if toolchain:
        ready(crate)
        return built(crate, toolchain, out)
    if is_left(crate) and not built(crate, f'{home()}/toolchain', f'out/lib{name}.a'):
        return 0
    return subprocess.run(['rt', 'lib', *PROCESSOR], cwd=crate.folder, check=False).returncode


def main(verb, *words):
    """tools/kit.py note, or tools/kit.py archive NAME [TOOLCHAIN OUT]"""
    return note() if verb == 'note' else archive(*words)


if __name__ == '__main__':
    sys.dont_write_bytecode = True
    sys.exit(main(*sys.argv[1:]))
