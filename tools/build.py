"""Proves and builds the program, and says how far it is.

`rt ci` does so, over a copy of the program's crates without their must-fail edits, side by side as processors and memory
allow (RT_JOBS=N: N at once). What was proved before on this machine and hasn't changed since isn't proved again.
"""

import os
import re
import shutil
import sys
import time

sys.dont_write_bytecode = True
from copies import TOP, Copy  # noqa: E402

NAME = 'rbacaudit'
PROGRAM = os.path.join('crates', NAME, 'out', NAME)
ENDED = re.compile(r'rt: (\w+) (proved|NOT PROVED.*|is kept)')


def keep(program, begun):
    """Puts the program where `make run`, `make install` and the tests look for it."""
    to = os.path.join(TOP, PROGRAM)
    os.makedirs(os.path.dirname(to), exist_ok=True)
    shutil.copy(program, to + '.new')
    # (as new as the sources were when the build began, by which `make run` knows it)
    os.utime(to + '.new', (begun, begun))
    os.replace(to + '.new', to)


class Progress:
    """Reports each crate as its proof ends, and whatever went wrong."""

    def __init__(self, count):
        self.count, self.done, self.begun = count, 0, time.monotonic()

    def tell(self, line):
        ended = ENDED.match(line)
        if ended:
            self.done += 1
            minutes = (time.monotonic() - self.begun) / 60
            how = 'was proved before' if ended[2] == 'is kept' else ended[2]
            line = '%s %s (%d of %d, after %.1f minutes)\n' % (ended[1], how, self.done, self.count, minutes)
        if not line.startswith('rt: ok'):
            print(line, end='', flush=True)


def main():
    begun = time.time()
    with Copy([NAME]) as copy:
        count = len(copy.crates)
        print('%d crates are to be proved, and the program built. From nothing this takes 50 to 75 minutes of four busy\n'
              'cores; what was proved before on this machine and is unchanged is kept.' % count, flush=True)
        status, program = copy.ci(Progress(count).tell), copy.path(PROGRAM)
        if status or not os.path.isfile(program):
            print('%s NOT BUILT' % NAME)
            return 1
        keep(program, begun)
    print('%s is proved and built: %s' % (NAME, PROGRAM))
    return 0


if __name__ == '__main__':
    sys.exit(main())
