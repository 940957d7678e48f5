"""The folder in which a run keeps its files; it goes with the run."""
import itertools
import os
import pathlib
import shutil
import tempfile

OLDER = b'older'  # what stands in OUT before a verb is to write it


class Room:
    def __init__(self):
        self.path = pathlib.Path(tempfile.mkdtemp(prefix='desk.'))
        self.count = itertools.count()

    def folder(self):
        made = self.path / f'folder{next(self.count)}'
        made.mkdir()
        return made

    def file(self, data):
        made = self.path / f'{next(self.count)}.sheet'
        made.write_bytes(data)
        return str(made)

    def leave(self):
        shutil.rmtree(self.path)


def contents(folder):
    """What stands in a folder: each name with its bytes, its target if it is a link, or 'folder'."""
    return {name: content(folder / name) for name in sorted(os.listdir(folder))}


def content(path):
    if path.is_symlink():
        return 'link to ' + os.readlink(path)
    return 'folder' if path.is_dir() else path.read_bytes()
