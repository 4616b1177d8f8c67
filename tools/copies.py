"""`rt ci` over a copy of some of this repository's crates.

What it proves there counts for the gate too, and what the gate has proved on this machine isn't proved again: `rt ci`
knows a crate by its text and by the libraries below it, wherever they stand.
"""

import os
import re
import shutil
import signal
import subprocess
import sys
import tempfile
import time

TOP = os.path.dirname(os.path.dirname(os.path.abspath(__file__)))
# Of a crate's folder, what was made there and the edits.
LEFT_OUT = 'out', 'must-fail', 'wrong-bodies'
SOURCES = 'src', 'specs', 'proofs'
ENDING = signal.SIGINT, signal.SIGTERM, signal.SIGHUP


def listed():
    """The crates of crates.txt, lowest first, each with its line."""
    with open(os.path.join(TOP, 'crates.txt'), encoding='utf-8') as file:
        return {line.split(':')[0]: line for line in file if re.match(r'\w+:', line)}


def with_below(names):
    """These crates and all that they stand on, each with its line of crates.txt."""
    lines, wanted = listed(), set(names)
    for name in reversed(lines):
        if name in wanted:
            wanted.update(lines[name].split(':')[1].split())
    return {name: line for name, line in lines.items() if name in wanted}


def library_of(crate):
    """The folder in which `rt ci` leaves the library of a crate of this repository."""
    return os.path.join(TOP, 'crates', crate, 'out', 'rlib')


def changes_in(*folders):
    """When each file and folder in these folders last changed, in nanoseconds."""
    return [os.stat(os.path.join(at, name)).st_mtime_ns for folder in folders for at, _, files in os.walk(folder) for name in ('', *files)]


def is_built(crate, below):
    """Whether the library of this crate is there, and no older than the crate's sources and the libraries below it."""
    made = changes_in(os.path.join(library_of(crate), crate + '.rlib'))
    sources = (os.path.join(TOP, 'crates', crate, it) for it in SOURCES)
    return bool(made) and min(made) >= max(changes_in(*sources, *map(library_of, below)))


class Copy:
    """A copy of these crates and of those below them, without edits."""

    def __init__(self, names):
        if not shutil.which('rt'):
            sys.exit('there is no rt on the PATH: install the Rattle kit')
        for number in ENDING:
            # (so that the copy is removed however this ends; what nohup ignores stays ignored)
            if signal.getsignal(number) is not signal.SIG_IGN:
                signal.signal(number, lambda it, _: sys.exit(128 + it))
        self.room = tempfile.mkdtemp(prefix='rbacaudit-')
        self.crates = with_below(names)
        # (the top of a repository, for rt)
        os.mkdir(self.path('.git'))
        shutil.copyfile(os.path.join(TOP, 'HANDLES'), self.path('HANDLES'))
        with open(self.path('crates.txt'), 'w', encoding='utf-8') as file:
            file.writelines(self.crates.values())
        for name in self.crates:
            shutil.copytree(os.path.join(TOP, 'crates', name), self.path('crates', name), ignore=shutil.ignore_patterns(*LEFT_OUT))

    def path(self, *names):
        return os.path.join(self.room, *names)

    def take_built(self):
        """Takes the libraries that `rt ci` left at the top, if all are there and no source has changed since; answers whether it did."""
        if not all(is_built(name, line.split(':')[1].split()) for name, line in self.crates.items()):
            return False
        for name in self.crates:
            os.mkdir(self.path('crates', name, 'out'))
            os.symlink(library_of(name), self.path('crates', name, 'out', 'rlib'))
        return True

    def __enter__(self):
        return self

    def __exit__(self, *_):
        for number in ENDING:
            signal.signal(number, signal.SIG_IGN)
        for _ in range(100):
            shutil.rmtree(self.room, ignore_errors=True)
            if not os.path.exists(self.room):
                break
            # (the provers end a moment after rt, and may still write)
            time.sleep(0.1)

    def ci(self, tell):
        """Runs `rt ci` there and answers its status. `tell` gets the lines of rt itself as they come, and the prover's lines on a crate
        that isn't proved, or the last ones if rt fails."""
        block = []
        with subprocess.Popen(['rt', 'ci'], cwd=self.room, stdin=subprocess.DEVNULL, stdout=subprocess.PIPE,
                              stderr=subprocess.STDOUT, text=True, errors='replace') as ran:
            try:
                for line in ran.stdout:
                    if not line.startswith('rt: '):
                        block = [] if line.startswith('== ') else block
                        block += [line] if not line.endswith(': proved\n') else []
                        continue
                    if re.search(r' NOT PROVED\b', line):
                        tell(''.join(block))
                    if re.search(r' (proved|NOT PROVED)\b', line):
                        block = []
                    tell(line)
            except BaseException:
                ran.kill()
                raise
        if ran.returncode:
            tell(''.join(block))
        return ran.returncode
