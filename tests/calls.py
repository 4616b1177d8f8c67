"""What each public call of the libraries does where an allocation fails: calls.py [--once]

tests/calls is a program that makes the calls, each between two marks, and tells what each answered; tests/refuse.c, preloaded,
makes the Nth allocation between two marks fail, that one alone or with all that follow. A sweep counts N upwards until a run meets
no failure. Each run answers that it is out of memory, or what it answers with memory; then the receiver is as before (a text: that
of before, and a prefix of what would have been added), the same call answers with memory as if nothing had failed, and so do all
calls after it. Calls that allocate nothing meet no failure where every allocation would fail. A sweep that met none has failed.

The last group makes the calls that answer three worked examples of tests/rows.json: what they print has to be the examples' lines.

`rt run` proves and builds the program above copies of the libraries; a library that was built for a crate above it, and is unchanged,
isn't proved again. (`rt ci` takes no program that may stop by itself, as this one does where what a call needs can't be made.) With
--once, as in the gate, the program isn't proved, and each call is made with memory alone: so it can't rot unseen. The last line is
`N passed, M failed`.
"""

import concurrent.futures
import errno
import glob
import itertools
import os
import re
import shutil
import subprocess
import sys
import tempfile

from common import TOP, checked, results, worked_examples

SOURCES = os.path.join(TOP, 'tests', 'calls')
EXPORT = os.path.join(SOURCES, 'export.json')
SOURCE = 'src', 'specs', 'proofs'
GROUPS = 'requests', 'growing', 'exports', 'matrix', 'commands', 'examples'
# Calls may be added; fewer would be a group that isn't made.
LEAST_CALLS = 183
# The texts of this project's errors, and of the kit's.
OUT_OF_MEMORY = 'out of memory', 'memory allocation failed'
NEVER = 10 ** 9
UNPROVED = re.compile(r': (not proved|no proof|could not tell)|: error\b|NOT PROVED')


class Examples:
    """The worked examples: files with their exports, and the status and the lines of each command over them."""

    def __init__(self, room):
        self.paths, self.answers = [], {}
        for given, answers in worked_examples():
            self.paths.append(os.path.join(room, 'example-%d.json' % len(self.paths)))
            with open(self.paths[-1], 'wb') as file:
                file.write(given)
            self.answers.update(answers)

    def compare(self, lines):
        """Compares what the calls print over the examples: `run` all that the command writes, the others the lines without the end of
        a page."""
        printed = [(*line[1].partition(', example ')[::2], line) for line in lines if line[0] == 'print' and ', example ' in line[1]]
        checked('each example is answered', {words for call, words, _ in printed if call == 'run'} == set(self.answers), repr(printed))
        for call, words, line in printed:
            status, wanted = self.answers[words]
            if call != 'run':
                status, wanted = 0, [it for it in wanted if it != 'end']
            ok = 'ok %016x' % digest(status)
            checked(line[1], line[2:] == ['', ok, escaped(wanted), ok], repr(line))


def digest(number):
    """The digest of a number, as digest.rt.txt makes it."""
    result = 0xcbf29ce484222325
    for byte in number.to_bytes(8, 'little'):
        result = (result ^ byte) * 0x100000001b3 % 2 ** 64
    return result


def escaped(lines):
    """Lines as one field."""
    return ''.join(line + '\n' for line in lines).replace('\\', r'\\').replace('\t', r'\x09').replace('\n', r'\x0a')


def lay_out(folder, *parts):
    """Makes the repository: these parts of the libraries, and the program above them, whose folder is given. The gate reads each .rt
    file of this repository, so the program's have another ending here."""
    with open(os.path.join(TOP, 'crates.txt'), encoding='utf-8') as file:
        lines = [line for line in file if not line.startswith(('#', 'rbacaudit:', 'rbac_examples:'))]
    libraries = [line.partition(':')[0] for line in lines]
    for library, part in itertools.product(libraries, parts):
        source = os.path.join(TOP, 'crates', library, part)
        if os.path.isdir(source):
            shutil.copytree(source, os.path.join(folder, 'crates', library, part))
    crate = os.path.join(folder, 'crates', 'calls')
    os.makedirs(os.path.join(crate, 'src'))
    for source in glob.glob(os.path.join(SOURCES, '*.rt.txt')):
        shutil.copy2(source, os.path.join(crate, 'src', os.path.basename(source).removesuffix('.txt')))
    shutil.copy2(os.path.join(TOP, 'HANDLES'), folder)
    # (the top of a repository, for rt)
    os.mkdir(os.path.join(folder, '.git'))
    with open(os.path.join(folder, 'crates.txt'), 'w', encoding='utf-8') as file:
        file.writelines([*lines, 'calls: %s\n' % ' '.join(libraries)])
    return crate


def build(folder):
    crate = lay_out(folder, *SOURCE, 'out/rlib')
    words = ['rt', 'run', '--', 'requests', EXPORT]
    return subprocess.run(words, cwd=crate, stdout=subprocess.PIPE, stderr=subprocess.STDOUT)


def told(output):
    """What rt said of functions that aren't proved, or its last words."""
    lines = [line[:500] for line in output.splitlines() if UNPROVED.search(line)]
    return '\n'.join(lines) or output[-2000:]


def make_once(folder):
    """Makes each call with memory, by the program unproved."""
    examples = Examples(folder)
    given = {os.path.basename(path): path for path in (EXPORT, *examples.paths)}
    data = itertools.chain.from_iterable(('--data', '%s=%s' % it) for it in given.items())
    words = ['rt', 'try', *data, '--', 'all', *given]
    tried = subprocess.run(words, cwd=lay_out(folder, *SOURCE), stdout=subprocess.PIPE, stderr=subprocess.PIPE)
    lines = [line.split('\t') for line in tried.stdout.decode().splitlines()]
    lines = [line for line in lines if line[0] in ('call', 'print', 'free')]
    said = repr(tried.stdout[-1000:] + tried.stderr[-1000:])
    checked('each call is made once', tried.returncode == 0 and len(lines) >= LEAST_CALLS, said)
    for line in lines:
        well = len(line) == 6 and line[3].startswith('ok ') and line[5].startswith('ok ')
        checked('%s succeeds with memory' % line[1], well, repr(line))
    examples.compare(lines)


class Program:
    def __init__(self, folder):
        self.path = os.path.join(folder, 'crates', 'calls', 'out', 'calls')
        self.shim = os.path.join(folder, 'refuse.so')
        self.examples = Examples(folder)

    def run(self, log, group, mark, first, last):
        """Makes a group's calls while allocations from FIRST to LAST fail in the one of this number: how many failures it met, and
        the fields of each call, or what the run said in the place of them."""
        environment = dict(LD_PRELOAD=self.shim, REFUSE='memory', REFUSE_BETWEEN=str(mark), REFUSE_FIRST=str(first),
                           REFUSE_LAST=str(last), REFUSE_ERROR=str(errno.ENOMEM), REFUSE_LOG=str(log))
        before = os.fstat(log).st_size
        ended = subprocess.run([self.path, group, EXPORT, *self.examples.paths], stdin=subprocess.DEVNULL, stdout=subprocess.PIPE,
                               stderr=subprocess.PIPE, env=environment, pass_fds=[log], timeout=60)
        lines = [line.split('\t') for line in ended.stdout.decode().splitlines()]
        if ended.returncode or ended.stderr != b'()' * len(lines) or any(len(line) != 6 for line in lines):
            lines = [['status %d' % ended.returncode, repr(ended.stdout[-300:]), repr(ended.stderr[-300:])]]
        return os.fstat(log).st_size - before, lines


def is_right(whole, got):
    """Whether a call that met failures answered as it has to; the fields are its kind and name, the receiver before, the answer, the
    receiver after, and the answer of the call that was made again."""
    if got[3] not in OUT_OF_MEMORY:
        return got == whole
    kept = got[4].startswith(got[2]) and whole[4].startswith(got[4]) if got[0] == 'print' else got[4] == got[2]
    return kept and got[:3] == whole[:3] and got[5] == whole[3]


def sweep(program, group, whole, at, from_there_on):
    """Lets allocation after allocation fail until a call meets no failure: how many were met, how many answers were that it is out of
    memory, and which went wrong."""
    met, short, wrong = 0, 0, []
    with tempfile.TemporaryFile() as log:
        for first in itertools.count(1):
            count, got = program.run(log.fileno(), group, at + 1, first, NEVER if from_there_on else first)
            same = len(got) == len(whole) and got[:at] == whole[:at] and got[at + 1:] == whole[at + 1:]
            if not same or not (is_right(whole[at], got[at]) if count else got == whole):
                wrong.append((first, got[at] if same else got))
            met, short = met + count, short + (same and got[at][3] in OUT_OF_MEMORY)
            if not count or len(wrong) == 5:
                return met, short, wrong


def sweeps(program, group, whole):
    """Each call that allocates, in both modes, two sweeps at a time: how many failures they met."""
    asked = [(at, mode) for at, line in enumerate(whole) if line[0] != 'free' for mode in (False, True)]
    total = 0
    with concurrent.futures.ThreadPoolExecutor(2) as pool:
        mets = pool.map(lambda it: sweep(program, group, whole, *it), asked)
        for (at, mode), (met, short, wrong) in zip(asked, mets):
            said = 'wrong are (N, fields) = %r' % wrong if wrong else '' if short else 'it shows nothing'
            which = 'from the Nth on' if mode else 'the Nth'
            checked('%s, %s: met %d failures, %d answers are out of memory' % (whole[at][1], which, met, short), not said, said)
            total += met
    return total


def free_calls(program, group, whole):
    """Calls that allocate nothing, each while every allocation would fail."""
    with tempfile.TemporaryFile() as log:
        for at, line in enumerate(whole):
            if line[0] == 'free':
                count, got = program.run(log.fileno(), group, at + 1, 1, NEVER)
                checked('%s: allocates nothing' % line[1], not count and got == whole, 'met %d failures, %r' % (count, got))


def calls(program):
    total = 0
    for group in GROUPS:
        with tempfile.TemporaryFile() as log:
            _, whole = program.run(log.fileno(), group, NEVER, NEVER, NEVER)
        well = all(len(line) == 6 and line[3].startswith('ok ') for line in whole)
        checked('the calls of %s succeed with memory' % group, well, repr(whole))
        if group == 'examples':
            program.examples.compare(whole)
        if well:
            total += sweeps(program, group, whole)
            free_calls(program, group, whole)
    print('the calls met %d failures' % total)


def sweep_all(folder):
    program = Program(folder)
    built = build(folder)
    checked('the program that makes the calls is proved and built', built.returncode == 0, told(built.stdout.decode()))
    words = ['cc', '-O2', '-Wall', '-Werror', '-shared', '-fPIC', '-o', program.shim, os.path.join(TOP, 'tests', 'refuse.c')]
    checked('what refuses is built', subprocess.run(words).returncode == 0)
    if all(results):
        calls(program)


def main():
    with tempfile.TemporaryDirectory() as room:
        if sys.argv[1:] == ['--once']:
            make_once(room)
        else:
            sweep_all(room)
    print('%d passed, %d failed' % (results.count(True), results.count(False)))
    return 0 if all(results) else 1


if __name__ == '__main__':
    sys.exit(main())
