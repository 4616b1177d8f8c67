"""Tries the wrong bodies: the prover of a crate has to refuse each edit of its folders must-fail/ and wrong-bodies/.

usage: python3 tools/wrong_bodies.py [--chosen] [--right] [--changed COMMIT] [--log FILE] [--mark] [--jobs N] [CRATE..]    (no crate: every one)

With --chosen only those that the gate tries: the edits with the line `# tried by the gate`. With --changed only the edits that a change
since that commit can touch: the edit itself, a file that it edits, or a definition of its crate has changed. How many are left is said.
With --log what each came to is also added to that file, a line for each, and an edit that it has is not tried again: so all edits can be
listed in several runs, in the background. With --jobs at most so many checks run side by side.

With --right the right body is tried in place of each edit with answers of its own (edit.py): it has to be proved with these answers.

The libraries are those that `rt ci` left at the top, if they are as new as the sources; otherwise `rt ci` over a copy builds them, of which
it proves only what hasn't passed on this machine. Then edits of different functions are tried together (together.py). An edit of no function's body `rt ci` tries by itself, as one of must-fail/. Each edit is told as
refused, as undecided (only a stored answer no longer fits, which says nothing of the contract), or as failed: not refused, or not
read. An undecided edit has failed too, unless its own line UNDECIDED says so and the gate doesn't try it; so has an edit with this line
that a goal refuses. With --mark these lines are written or taken away as each edit came out. The last line is `N passed, M failed`, and
counts no undecided edit that says so; the lines above say how many of each kind there are, by crate.
"""

import argparse
import collections
import concurrent.futures
import os
import re
import shutil
import subprocess
import sys

sys.dont_write_bytecode = True
from copies import TOP, Copy, listed  # noqa: E402
from edit import UNDECIDED, Right, edits_of  # noqa: E402
from together import Crate, Kind, Kit  # noqa: E402

ALONE = re.compile(r'rt: must-fail (\S+/\S+\.edit): (refused, as it must be|BAD EDIT)(.*)')


def folder_of(crate):
    return os.path.join(TOP, 'crates', crate)


def is_library(crate):
    return os.path.isfile(os.path.join(folder_of(crate), 'src', 'lib.rt'))


def chosen(names):
    """The crates to try: those named, or every one that has wrong bodies."""
    crates = listed()
    unknown = set(names) - set(crates)
    if unknown:
        sys.exit('wrong-bodies: crates.txt names no crate %s' % ', '.join(sorted(unknown)))
    return [crate for crate in crates if not names or crate in names]


def changed_since(commit):
    """The files that differ from that commit, with those that git doesn't know yet."""
    if subprocess.run(['git', 'rev-parse', '-q', '--verify', '--end-of-options', commit + '^{commit}'], cwd=TOP,
                      stdout=subprocess.DEVNULL, stderr=subprocess.DEVNULL, check=False).returncode:
        sys.exit('wrong-bodies: there is no commit %s' % commit)
    asks = ['diff', '--name-only', '--no-renames', '-z', commit], ['ls-files', '-o', '--exclude-standard', '-z']
    said = [subprocess.run(['git', *ask], cwd=TOP, stdout=subprocess.PIPE, check=True).stdout for ask in asks]
    return set(b''.join(said).decode().split('\0'))


def is_touched(edit, changed):
    """Whether a change of these files can change what becomes of the edit in its own crate."""
    own = 'crates/%s/' % edit.crate
    edited = {own + file for file, _, _ in edit.pairs}
    return os.path.relpath(edit.path, TOP) in changed or bool(edited & changed) or any(it.startswith(own + 'specs/') for it in changed)


def words():
    parser = argparse.ArgumentParser(prog='wrong_bodies.py', allow_abbrev=False)
    parser.add_argument('--chosen', action='store_true')
    parser.add_argument('--right', action='store_true')
    parser.add_argument('--changed', metavar='COMMIT')
    parser.add_argument('--log', metavar='FILE')
    parser.add_argument('--mark', action='store_true')
    parser.add_argument('--jobs', metavar='N', type=int)
    parser.add_argument('crates', nargs='*', metavar='CRATE')
    return parser.parse_args()


def at_once():
    """How many checks run side by side: one for each processor, where there is memory for that many."""
    with open('/proc/meminfo', encoding='ascii') as file:
        free = int(re.search(r'MemAvailable: *(\d+)', file.read())[1])
    return max(1, min(os.cpu_count(), free // 4000000))


def by_crate(edits):
    found = collections.defaultdict(list)
    for edit in edits:
        found[edit.crate].append(edit)
    return found


class Told:
    """What each edit came to, as it is told, and in a file if there is one."""

    def __init__(self, file, edits):
        self.file, self.kinds = file, {}
        if file and os.path.exists(file):
            with open(file, encoding='utf-8') as lines:
                earlier = dict(line.rstrip('\n').split(': ', 1) for line in lines)
            self.kinds = {edit: Kind(earlier[edit.name]) for edit in edits if edit.name in earlier}

    def tell(self, edit, kind):
        self.kinds[edit] = kind
        line = '%s: %s' % (edit.name, kind.value)
        print(line, flush=True)
        if self.file:
            with open(self.file, 'a', encoding='utf-8') as file:
                file.write(line + '\n')


def try_together(edits, tell, jobs=None):
    """Tells what each edit of a function's body came to, and returns the others. A program is no library, which could be built first."""
    sets = by_crate(edit for edit in edits if is_library(edit.crate))
    left = [edit for edit in edits if edit.crate not in sets]
    if not sets:
        return left
    with Copy(list(sets)) as copy, concurrent.futures.ThreadPoolExecutor(jobs or at_once()) as workers:
        if not copy.take_built() and copy.ci(lambda line: 'NOT PROVED' in line and print(line, end='', flush=True)):
            sys.exit('wrong-bodies: a crate is not proved, so nothing is tried')
        kit = Kit()
        crates = {name: Crate(kit, copy, name) for name in sets}
        try:
            # (those with most to do first)
            order = sorted(sets, key=lambda it: -len(sets[it]))
            ends = [workers.submit(crates[name].try_together, sets[name], tell) for name in order]
            return left + [edit for end in concurrent.futures.as_completed(ends) for edit in end.result()]
        except BaseException:
            for crate in crates.values():
                crate.end()
            raise


def try_alone(edits, tell):
    """Has `rt ci` try each edit by itself."""
    with Copy(sorted({edit.crate for edit in edits})) as copy:
        for edit in edits:
            folder = copy.path('crates', edit.crate, 'must-fail')
            os.makedirs(folder, exist_ok=True)
            shutil.copy(edit.path, folder)
        said = []
        copy.ci(said.append)
    found = {told[1]: told for line in said for told in [ALONE.match(line)] if told}
    for edit in edits:
        told = found.get(edit.name)
        if not told:
            tell(edit, Kind.PROVED)
        elif told[2] == 'BAD EDIT':
            tell(edit, Kind.UNREAD)
        else:
            tell(edit, Kind.UNDECIDED if 'only because a proof file names' in told[3] else Kind.REFUSED)


def main():
    given = words()
    edits = [edit for crate in chosen(given.crates) for edit in edits_of(folder_of(crate)) if edit.is_marked or not given.chosen]
    if given.changed is not None:
        every, changed = edits, changed_since(given.changed)
        edits = [edit for edit in every if is_touched(edit, changed)]
        print('%d are tried; %d are left out: no change since %s touches them'
              % (len(edits), len(every) - len(edits), given.changed), flush=True)
    if given.right:
        edits = [Right(edit) for edit in edits if edit.answers]
    if not edits:
        sys.exit('wrong-bodies: there are none')
    told = Told(given.log, edits)
    left = try_together([it for it in edits if it not in told.kinds], told.tell, given.jobs)
    if left and not given.right:
        print('%d are tried one by one' % len(left), flush=True)
        try_alone(left, told.tell)
    if given.right:
        return told_right(edits, told.kinds)
    if given.mark:
        mark(told.kinds)
    return told_all(told.kinds)


def mark(kinds):
    """Has each edit that the gate doesn't try, and that is refused or undecided, say whether it is undecided."""
    for edit, kind in kinds.items():
        if kind in (Kind.REFUSED, Kind.UNDECIDED) and not edit.is_tried_by_the_gate() and edit.is_undecided != (kind is Kind.UNDECIDED):
            edit.mark_undecided(kind is Kind.UNDECIDED)


def is_as_it_says(edit, kind):
    """Whether an edit is refused, or undecided, as its lines have it."""
    return kind is (Kind.UNDECIDED if edit.is_undecided and not edit.is_tried_by_the_gate() else Kind.REFUSED)


def told_right(edits, kinds):
    """Prints which right bodies aren't proved with the answers of an edit, and the counts; the status to end with."""
    failed = [edit for edit in edits if kinds.get(edit) is not Kind.PROVED]
    for edit in failed:
        print('FAIL %s: its answers do not prove the right body' % edit.name)
    print('%d passed, %d failed' % (len(edits) - len(failed), len(failed)))
    return 1 if failed else 0


def told_all(kinds):
    """Prints the counts of each crate, and what was not refused; the status to end with."""
    for crate, them in sorted(by_crate(kinds).items()):
        counts = collections.Counter(kinds[edit].name.lower() for edit in them)
        print('%s: %d edits: %s' % (crate, len(them), ', '.join('%d %s' % (count, kind) for kind, count in sorted(counts.items()))))
    for edit, kind in kinds.items():
        if not is_as_it_says(edit, kind):
            print('FAIL %s: %s' % (edit.name, kind.value if kind is not Kind.REFUSED else 'a goal refuses it: its line %r is wrong' % UNDECIDED))
    undecided = by_crate(edit for edit, kind in kinds.items() if kind is Kind.UNDECIDED)
    print('undecided: %s' % (', '.join('%s %d' % (crate, len(them)) for crate, them in sorted(undecided.items())) or 'none'))
    as_they_say = [kind for edit, kind in kinds.items() if is_as_it_says(edit, kind)]
    failed = len(kinds) - len(as_they_say)
    print('%d passed, %d failed' % (as_they_say.count(Kind.REFUSED), failed))
    return 1 if failed else 0


if __name__ == '__main__':
    sys.exit(main())
